//! Random lists of calls, with good and bad arguments.

use crate::book::Book;
use crate::calls::Call;
use crate::file;
use crate::generate::again::{pages_of, Earlier, Named};
use crate::generate::files::any_file;
use crate::generate::mutings::{about_muted, any_held_slot, any_mark, any_muted_atom, any_muting};
use crate::generate::replacements::any_replacement;
use crate::random::Random;
use crate::table::RawTable;

/// Numbers at and past the limits, where a narrow type would wrap.
const LIMITS: [u32; 9] = [
    254,
    255,
    256,
    257,
    511,
    65_535,
    65_536,
    u32::MAX - 1,
    u32::MAX,
];

/// Numbers that no atom and no slot has.
pub(super) const TOO_LARGE: [u32; 7] = [256, 257, 511, 65_535, 65_536, u32::MAX - 1, u32::MAX];

/// A number below the bound, now and then one at the limits.
fn number(random: &mut Random, bound: usize) -> u32 {
    if random.percent(3) {
        return *random.pick(&LIMITS);
    }
    random.below(bound) as u32
}

/// A list that is short for the most part, and may repeat an atom.
fn list(random: &mut Random, atoms: usize) -> Vec<u32> {
    let longest = *random.pick(&[0, 1, 1, 2, 2, 3, 5, 9]);
    let count = random.between(0, longest);
    (0..count).map(|_| number(random, atoms)).collect()
}

/// Draws calls over about so many atoms and slots. Some additions name an earlier rule again. The book has made every
/// call that was noted: replacements and mutings are drawn with its pages in view.
pub struct Calls {
    atoms: usize,
    slots: usize,
    earlier: Earlier,
    book: Book,
}

impl Calls {
    /// Calls on that table; its rules may be named again.
    pub fn on(table: &RawTable, atoms: usize, slots: usize) -> Calls {
        Calls {
            atoms,
            slots,
            earlier: Earlier::in_table(table),
            book: Book::holding(pages_of(table)),
        }
    }

    /// Named before, one time in five; now and then about a muted rule; else its lists are drawn.
    fn named(&mut self, random: &mut Random) -> Named {
        if random.percent(12) {
            if let Some(named) = about_muted(random, self.book.pages()) {
                return named;
            }
        }
        if random.percent(20) {
            if let Some(again) = self.earlier.again(random) {
                return again;
            }
        }
        let named = Named {
            head: number(random, self.atoms),
            positives: list(random, self.atoms),
            negatives: if random.percent(50) {
                list(random, self.atoms)
            } else {
                Vec::new()
            },
        };
        self.earlier.note(named.clone());
        named
    }

    pub fn addition(&mut self, random: &mut Random) -> Call {
        self.named(random).addition()
    }

    /// One of a muted rule now and then; else any.
    fn atom(&self, random: &mut Random) -> u32 {
        match any_muted_atom(random, self.book.pages()) {
            Some(atom) if random.percent(25) => atom,
            _ => number(random, self.atoms),
        }
    }

    /// One that holds a rule half of the time; else any.
    fn slot(&self, random: &mut Random) -> u32 {
        match any_held_slot(random, self.book.pages()) {
            Some(slot) if random.percent(50) => slot,
            _ => number(random, self.slots),
        }
    }

    pub fn removal(&self, random: &mut Random) -> Call {
        Call::Remove {
            slot: number(random, self.slots),
        }
    }

    /// One drawn for what it comes to, for the most part; else with any slot and any rule.
    pub fn replacement(&mut self, random: &mut Random) -> Call {
        if random.percent(75) {
            let (slot, named) = any_replacement(random, self.book.pages());
            return named.replacing(slot);
        }
        let slot = number(random, self.slots);
        self.named(random).replacing(slot)
    }

    /// One drawn for what it comes to, for the most part; else of any slot with any mark.
    pub fn muting(&self, random: &mut Random) -> Call {
        if random.percent(85) {
            return any_muting(random, self.book.pages());
        }
        let mark = if random.percent(50) {
            0
        } else {
            any_mark(random)
        };
        Call::Mute {
            slot: number(random, self.slots),
            mark,
        }
    }

    /// The file of what some additions, removals and mutings leave: its rules are like those of the calls around it.
    fn file_of_additions(&mut self, random: &mut Random) -> Vec<u8> {
        let mut book = Book::empty();
        let mutings = *random.pick(&[0, 0, 20, 60]);
        for _ in 0..random.between(0, 40) {
            let named = self.named(random);
            // A refused call changes nothing in the file.
            let _ = book.add(named.head, &named.positives, &named.negatives);
            if random.percent(20) {
                let _ = book.remove(number(random, self.slots));
            }
            if random.percent(mutings) {
                let _ = book.mute(number(random, self.slots), any_mark(random));
            }
        }
        file::write(book.pages())
    }

    /// A load of a good file for the most part, else of a file of any kind.
    pub fn load(&mut self, random: &mut Random) -> Call {
        let bytes = if random.percent(60) {
            self.file_of_additions(random)
        } else {
            any_file(random)
        };
        Call::Load { bytes }
    }

    /// Makes a drawn call on the book, so that what is drawn next has its pages in view.
    pub fn note(&mut self, call: &Call) {
        // A call that changes no table is none of the book's.
        let _ = self.book.make(call);
    }

    /// Any call; most of them change the table. Loads are rare, since each begins from nothing.
    pub fn call(&mut self, random: &mut Random) -> Call {
        let call = self.drawn(random);
        self.note(&call);
        call
    }

    fn drawn(&mut self, random: &mut Random) -> Call {
        let atom = self.atom(random);
        match random.below(31) {
            0..=9 => self.addition(random),
            10..=12 => self.removal(random),
            21..=24 => self.replacement(random),
            25..=28 => self.muting(random),
            13 => Call::Label { atom },
            29 => Call::Labels,
            30 => Call::Rule {
                slot: self.slot(random),
            },
            14 => Call::Spoiler {
                slot: self.slot(random),
            },
            15 => Call::Justifications { atom },
            16 => Call::Consequences { atom },
            17 => Call::Repercussions { atom },
            18..=19 => Call::Reason { atom },
            _ if random.percent(50) => self.load(random),
            _ => Call::Save,
        }
    }
}
