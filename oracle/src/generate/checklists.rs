//! Random lists of calls of a checklist, mixed with all others. The calls are drawn with the pages in view that they
//! leave, so that a checklist lives long enough to be completed, is broken now and then, and mended.

use crate::book::Book;
use crate::calls::Call;
use crate::checklist::{frame_rule, good, Checklist, Mark};
use crate::file;
use crate::generate::again::Named;
use crate::generate::calls::Calls;
use crate::generate::mutings::{any_held_slot, any_mark, any_muting};
use crate::generate::replacements::any_replacement;
use crate::limits::{FILES, SLOTS};
use crate::random::Random;
use crate::rules::{held, holds, Program, Rule};
use crate::table::RawTable;

/// Numbers that no checklist and no file has; some start over in a narrow type, or when 3 times the number is taken.
const NO_FILES: [u32; 9] = [
    0,
    61,
    62,
    256,
    257,
    65_537,
    1_431_655_766,
    u32::MAX - 1,
    u32::MAX,
];

/// The addition of a rule, its lists in any order.
fn addition(random: &mut Random, rule: &Rule) -> Call {
    Named::of(rule).shuffled(random).addition()
}

/// Draws calls on a checklist. The book has made every call that was drawn.
pub struct Checklists {
    files: u32,
    book: Book,
    other: Calls,
    /// What mends the checklist, the last first.
    mends: Vec<Call>,
}

impl Checklists {
    /// Calls on a table that nothing is known of yet.
    pub fn start() -> Checklists {
        Checklists {
            files: 0,
            book: Book::empty(),
            other: Calls::on(&RawTable::empty(), 12, 12),
            mends: Vec::new(),
        }
    }

    /// How many files the last opening was for, 0 where it was refused.
    pub fn files(&self) -> u32 {
        self.files
    }

    fn opening(random: &mut Random) -> Call {
        let files = match random.below(20) {
            0..=2 => *random.pick(&NO_FILES),
            3 => FILES,
            4 => FILES - 1,
            5 => random.between(1, FILES as usize) as u32,
            _ => random.between(1, 5) as u32,
        };
        Call::Open { files }
    }

    fn stands(&self, mark: Mark, file: u32) -> bool {
        holds(self.book.pages(), &mark.fact(file))
    }

    /// One of the files that are unsent for the most part, else any on the list, and now and then a number that is not.
    fn file(&self, random: &mut Random) -> u32 {
        let listed: Vec<u32> = (1..=self.files).collect();
        let unsent = listed.iter().copied();
        let unsent: Vec<u32> = unsent.filter(|&i| !self.stands(Mark::Sent, i)).collect();
        match random.below(20) {
            0 => *random.pick(&[0, self.files, self.files + 1]),
            1 => *random.pick(&NO_FILES),
            2..=15 if !unsent.is_empty() => *random.pick(&unsent),
            _ if listed.is_empty() => 1,
            _ => *random.pick(&listed),
        }
    }

    /// A file whose skip stands for the most part, else any.
    fn skipped(&self, random: &mut Random) -> u32 {
        let skipped = (1..=self.files).filter(|&file| self.stands(Mark::Skipped, file));
        let skipped: Vec<u32> = skipped.collect();
        if skipped.is_empty() || random.percent(20) {
            return self.file(random);
        }
        *random.pick(&skipped)
    }

    /// A call on a file. More are sent than skipped, and skips do not last.
    fn on_file(&self, random: &mut Random) -> Call {
        match random.below(10) {
            0..=5 => Call::FileSent {
                file: self.file(random),
            },
            6 => Call::FileSkipped {
                file: self.file(random),
            },
            _ => Call::SkipWithdrawn {
                file: self.skipped(random),
            },
        }
    }

    /// A mark put in by an addition, or taken out by the removal of its slot; where the list has no files, an opening.
    fn mark_by_hand(&self, random: &mut Random) -> Call {
        if self.files == 0 {
            return Checklists::opening(random);
        }
        let file = random.between(1, self.files as usize) as u32;
        let fact = random.pick(&Mark::BOTH).fact(file);
        match held(self.book.pages()).find(|(_, rule)| **rule == fact) {
            Some((slot, _)) => Call::Remove { slot },
            None => addition(random, &fact),
        }
    }

    /// The rule with its head changed; or with an entry that goes, comes or gives way to another, for the most part.
    fn nearly(&self, random: &mut Random, mut rule: Rule) -> Rule {
        let atom = random.below(3 * self.files as usize + 4) as u32;
        if random.percent(15) {
            rule.head = atom;
            return rule;
        }
        let list = if random.percent(50) {
            &mut rule.positives
        } else {
            &mut rule.negatives
        };
        match random.below(5) {
            0..=1 => drop(list.pop_first()),
            2..=3 => drop(list.pop_last()),
            _ => {}
        }
        if random.percent(75) {
            list.insert(atom);
        }
        rule
    }

    /// A rule that a checklist of these files hardly ever has.
    fn stray(&self, random: &mut Random) -> Rule {
        let files = self.files;
        let file = random.between(1, files.max(1) as usize) as u32;
        let mark = *random.pick(&Mark::BOTH);
        match random.below(6) {
            0 => Rule::of(good(file), &[], &[]),
            1 => mark.fact(files + 1),
            2 => frame_rule(files + 1),
            3 => self.nearly(random, mark.fact(file)),
            4 => self.nearly(random, frame_rule(file)),
            _ => Rule::of(random.between(185, 255) as u32, &[], &[]),
        }
    }

    /// Adds a rule that does not belong, or one of any kind; it is mended by its removal.
    fn stray_addition(&mut self, random: &mut Random) -> Call {
        let free = self.book.pages().iter().position(|page| page.is_none());
        if let Some(slot) = free {
            self.mends.push(Call::Remove { slot: slot as u32 });
        }
        if random.percent(20) {
            return self.other.addition(random);
        }
        let rule = self.stray(random);
        addition(random, &rule)
    }

    /// Frees a slot of the frame. Its rule comes back as it was, or first as another: the freed slot is the lowest free
    /// one.
    fn frame_removal(&mut self, random: &mut Random) -> Call {
        let slot = random.between(0, self.files as usize) as u32;
        self.mends.push(addition(random, &frame_rule(slot)));
        if random.percent(80) {
            let other = if random.percent(80) {
                self.nearly(random, frame_rule(slot))
            } else {
                self.stray(random)
            };
            self.mends.push(Call::Remove { slot });
            self.mends.push(addition(random, &other));
        }
        Call::Remove { slot }
    }

    /// Replaces a rule of the frame by what is nearly the same or by itself, a mark by a mark, or anything. The old
    /// rule mends it.
    fn replacement(&mut self, random: &mut Random) -> Call {
        let frame = random.between(0, self.files as usize) as u32;
        let file = random.between(1, self.files.max(1) as usize) as u32;
        let other = random.pick(&Mark::BOTH).fact(file);
        let behind = (0..).zip(self.book.pages()).skip(self.files as usize + 1);
        let marks = behind.filter(|(_, page)| page.is_some());
        let marks: Vec<u32> = marks.map(|(page, _)| page).collect();
        let (slot, named) = match random.below(10) {
            0..=1 => (frame, Named::of(&self.nearly(random, frame_rule(frame)))),
            2 => (frame, Named::of(&frame_rule(frame))),
            3..=6 if !marks.is_empty() => (*random.pick(&marks), Named::of(&other)),
            _ => any_replacement(random, self.book.pages()),
        };
        if let Some(Some(old)) = self.book.pages().get(slot as usize) {
            let mend = Named::of(&old.rule).shuffled(random).replacing(slot);
            self.mends.push(mend);
        }
        named.shuffled(random).replacing(slot)
    }

    /// Mutes a rule of the frame or a mark, which unmuting mends; or sets any mark.
    fn muting(&mut self, random: &mut Random) -> Call {
        let pages = self.book.pages();
        match any_held_slot(random, pages) {
            Some(slot) if random.percent(75) => {
                self.mends.push(Call::Mute { slot, mark: 0 });
                let mark = any_mark(random);
                Call::Mute { slot, mark }
            }
            _ => any_muting(random, pages),
        }
    }

    /// The pages, with what stands behind the frame moved anywhere behind it.
    fn moved(&self, random: &mut Random) -> Program {
        let mut pages = self.book.pages().clone();
        random.shuffle(&mut pages[self.files as usize + 1..]);
        pages
    }

    /// The file of the pages as they are or with their marks elsewhere; or of anything, and then the pages are loaded
    /// again to mend.
    fn load(&mut self, random: &mut Random) -> Call {
        let bytes = file::write(&self.moved(random));
        if random.percent(60) {
            return Call::Load { bytes };
        }
        self.mends.push(Call::Load { bytes });
        self.other.load(random)
    }

    /// Any other change.
    fn break_or_move(&mut self, random: &mut Random) -> Call {
        match random.below(10) {
            0..=2 => self.stray_addition(random),
            3..=6 => self.frame_removal(random),
            7..=8 => self.load(random),
            _ => Call::Remove {
                slot: random.below(SLOTS) as u32,
            },
        }
    }

    /// Is it time for an opening? Long lists are opened anew more rarely, so that they can be completed; what nothing
    /// mends is not kept for long.
    fn opens(&self, random: &mut Random) -> bool {
        let lost = || self.mends.is_empty() && Checklist::of(self.book.pages()).is_none();
        random.below(30 + 8 * self.files as usize) == 0 || random.percent(15) && lost()
    }

    /// A call that changes a table. A long list is broken more rarely too.
    fn drawn(&mut self, random: &mut Random) -> Call {
        if self.opens(random) {
            return Checklists::opening(random);
        }
        if random.percent(40) {
            if let Some(mend) = self.mends.pop() {
                return mend;
            }
        }
        match random.below(100 + 3 * self.files as usize) {
            0..=11 => self.break_or_move(random),
            12..=25 => self.mark_by_hand(random),
            26..=33 => self.replacement(random),
            34..=38 => self.muting(random),
            _ => self.on_file(random),
        }
    }

    /// Makes a drawn call on the book.
    fn note(&mut self, call: &Call) {
        let accepted = self.book.make(call).is_some_and(|answer| answer.is_ok());
        if let Call::Open { files } = call {
            self.files = if accepted { *files } else { 0 };
            self.mends.clear();
        }
    }

    /// A call that changes a table: one of a checklist for the most part.
    pub fn change(&mut self, random: &mut Random) -> Call {
        let call = self.drawn(random);
        self.note(&call);
        call
    }

    /// An opening for a number of files that a checklist may have, as a list of calls begins.
    pub fn open(&mut self, random: &mut Random) -> Call {
        let files = match random.below(10) {
            0 => FILES,
            1 => random.between(6, FILES as usize) as u32,
            _ => random.between(1, 5) as u32,
        };
        let call = Call::Open { files };
        self.note(&call);
        call
    }

    /// A call on a file of the list, or now and then on none; or, more rarely, an opening, some of them refused.
    pub fn file_call(&mut self, random: &mut Random) -> Call {
        let call = if self.opens(random) {
            Checklists::opening(random)
        } else {
            self.on_file(random)
        };
        self.note(&call);
        call
    }

    /// A question about an atom or a slot of the list.
    fn question(&self, random: &mut Random) -> Call {
        let atom = random.below(3 * self.files as usize + 4) as u32;
        let slot = random.below(2 * self.files as usize + 3) as u32;
        match random.below(9) {
            0 => Call::Label { atom },
            1 => Call::Spoiler { slot },
            6 => Call::Labels,
            7 => Call::Rule { slot },
            2 => Call::Justifications { atom },
            3 => Call::Consequences { atom },
            4 => Call::Repercussions { atom },
            5 => Call::Reason { atom },
            _ => Call::Save,
        }
    }

    /// Any call; most of them are of a checklist.
    pub fn call(&mut self, random: &mut Random) -> Call {
        match random.below(20) {
            0..=11 => self.change(random),
            12..=14 => Call::Missing,
            15..=17 => Call::Complete,
            _ => self.question(random),
        }
    }
}
