//! Random lists of calls written as numbers, whole and spoiled, and the bytes of their files.

use crate::calls::Call;
use crate::generate::calls::Calls;
use crate::generate::checklists::Checklists;
use crate::generate::files::{file, Kind};
use crate::random::Random;
use crate::table::RawTable;

/// What is done to a list of calls once it is written.
#[derive(Clone, Copy, PartialEq, Eq, Debug)]
pub enum Ending {
    /// Nothing: all of its calls are made.
    Whole,
    /// The list is cut anywhere.
    Cut,
    /// A number anywhere is another: mostly the calls behind it are read from a wrong place.
    Changed,
    /// Numbers that are no list of calls.
    Noise,
}

pub const ENDINGS: [Ending; 4] = [Ending::Whole, Ending::Cut, Ending::Changed, Ending::Noise];

/// Calls written as numbers, and the files that they load, with stray bytes between.
#[derive(Clone, Default, Debug)]
pub struct List {
    pub words: Vec<u32>,
    pub files: Vec<u8>,
}

impl List {
    /// Writes a call that changes a table.
    fn push(&mut self, random: &mut Random, call: &Call) {
        match call {
            Call::Add {
                head,
                positives,
                negatives,
            } => {
                let (p, n) = (positives.len() as u32, negatives.len() as u32);
                self.words.extend([1, *head, p, n]);
                self.words.extend(positives.iter().chain(negatives));
            }
            Call::Remove { slot } => self.words.extend([0, *slot]),
            Call::Replace {
                slot,
                head,
                positives,
                negatives,
            } => {
                let (p, n) = (positives.len() as u32, negatives.len() as u32);
                self.words.extend([7, *slot, *head, p, n]);
                self.words.extend(positives.iter().chain(negatives));
            }
            Call::Mute { slot, mark } => self.words.extend([8, *slot, *mark]),
            Call::Load { bytes } => {
                self.files.resize(self.files.len() + random.below(3), 0);
                let from = self.files.len() as u32;
                self.files.extend(bytes);
                self.words.extend([2, from, self.files.len() as u32]);
            }
            Call::Open { files } => self.words.extend([3, *files]),
            Call::FileSent { file } => self.words.extend([4, *file]),
            Call::FileSkipped { file } => self.words.extend([5, *file]),
            Call::SkipWithdrawn { file } => self.words.extend([6, *file]),
            _ => unreachable!("a call that changes no table"),
        }
    }
}

/// A list of calls on a checklist and of others between, which starts with an opening for the most part.
fn on_checklists(random: &mut Random) -> List {
    let mut calls = Checklists::start();
    let mut list = List::default();
    if random.percent(80) {
        let opening = calls.open(random);
        list.push(random, &opening);
    }
    for _ in 0..random.between(0, 20 + 4 * calls.files() as usize) {
        let call = calls.change(random);
        list.push(random, &call);
    }
    list
}

/// A list of up to 120 calls that know of no checklist. Now and then they fill the table: some have 300 calls, nearly
/// all additions, and of these half begin with a load of a full table.
fn on_rules(random: &mut Random) -> List {
    let full = random.percent(5);
    let atoms = if full {
        256
    } else {
        *random.pick(&[4, 8, 20, 60, 256])
    };
    let (count, removals, loads) = if full {
        (300, 2, 0)
    } else {
        (random.between(0, 120), 22, 3)
    };
    let mut calls = Calls::on(&RawTable::empty(), atoms, 2 * atoms);
    let mut list = List::default();
    if full && random.percent(50) {
        let bytes = file(random, Kind::FullTable);
        let load = Call::Load { bytes };
        calls.note(&load);
        list.push(random, &load);
    }
    for _ in 0..count {
        let call = match random.below(100) {
            share if share < removals => calls.removal(random),
            share if share < removals + loads => calls.load(random),
            70..80 => calls.muting(random),
            80.. => calls.replacement(random),
            _ => calls.addition(random),
        };
        calls.note(&call);
        list.push(random, &call);
    }
    list
}

/// A list of calls of either sort.
fn whole(random: &mut Random) -> List {
    if random.percent(40) {
        on_checklists(random)
    } else {
        on_rules(random)
    }
}

/// A number that a list may hold anywhere: a kind or the first that is none, a count, an atom, the end of a block, one
/// that is far too large.
fn any(random: &mut Random) -> u32 {
    match random.below(5) {
        0 => random.below(10) as u32,
        1 => random.below(12) as u32,
        2 => 512 * random.below(14) as u32,
        3 => random.word() as u32,
        _ => *random.pick(&[255, 256, 65_536, u32::MAX - 1, u32::MAX]),
    }
}

/// Another number in the place of one: a neighbour or any.
fn changed(random: &mut Random, word: u32) -> u32 {
    match random.below(4) {
        0 => word.wrapping_add(1),
        1 => word.wrapping_sub(1),
        _ => any(random),
    }
}

/// A list with that ending.
pub fn list(random: &mut Random, ending: Ending) -> List {
    let mut list = whole(random);
    let words = &mut list.words;
    match ending {
        Ending::Whole => {}
        Ending::Cut => words.truncate(random.below(words.len() + 1)),
        Ending::Changed if words.is_empty() => {}
        Ending::Changed => {
            let place = random.below(words.len());
            words[place] = changed(random, words[place]);
        }
        Ending::Noise => words.iter_mut().for_each(|word| *word = any(random)),
    }
    list
}
