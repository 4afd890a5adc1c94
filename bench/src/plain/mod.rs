//! The engine's algorithm, the calls that save and load, those of a checklist, and the sheet program in plain Rust, for
//! the ratio: the same passes over the same numbers, no proof.

mod blocks;
mod calls;
pub mod checklist;
mod labels;
mod lines;
mod load;
mod loops;
mod reason;
mod replies;
mod save;
pub mod sheet;
mod sound;

pub use calls::{add, all_labels, label, mute, remove, replace};
pub use labels::relabel;
pub use load::load;
pub use save::save;
pub use sound::sound;

use yeqontur::raw::{Table, ATOMS, ENTRIES, SLOTS};

pub type Flags = [bool; ATOMS];
pub type Numbers = [u16; ATOMS];

/// The numbers of a slot.
pub type Slot = [u16; 14];

/// Where each stands; the entries are between counts and depth.
pub const STATE: usize = 0;
pub const HEAD: usize = 1;
pub const POSITIVES: usize = 2;
pub const NEGATIVES: usize = 3;
pub const FIRST_ENTRY: usize = 4;
pub const DEPTH: usize = 12;
pub const SPOILER: usize = 13;

pub const FREE: Slot = [0; 14];

/// The slots of a table, by number.
pub fn slots(table: &Table) -> &[Slot; SLOTS] {
    let (slots, _) = table.words.as_chunks();
    slots.try_into().expect("so many slots")
}

pub fn slots_mut(table: &mut Table) -> &mut [Slot; SLOTS] {
    let (slots, _) = table.words.as_chunks_mut();
    slots.try_into().expect("so many slots")
}

/// The highest slot that holds a rule.
pub fn last_held(table: &Table) -> usize {
    let held = slots(table).iter().rposition(|slot| slot[STATE] != 0);
    held.expect("a rule")
}

pub fn head(slot: &Slot) -> usize {
    slot[HEAD] as usize
}

fn entries(slot: &Slot) -> &[u16] {
    &slot[FIRST_ENTRY..FIRST_ENTRY + ENTRIES]
}

pub fn positives(slot: &Slot) -> &[u16] {
    &entries(slot)[..(slot[POSITIVES] as usize).min(ENTRIES)]
}

pub fn negatives(slot: &Slot) -> &[u16] {
    let end = (slot[POSITIVES] as usize + slot[NEGATIVES] as usize).min(ENTRIES);
    &entries(slot)[positives(slot).len()..end]
}

pub fn has(flags: &Flags, atom: u16) -> bool {
    flags.get(atom as usize).copied().unwrap_or(false)
}

pub fn number(numbers: &Numbers, atom: u16) -> u16 {
    numbers.get(atom as usize).copied().unwrap_or(0)
}

pub fn valid(slot: &Slot, flags: &Flags) -> bool {
    positives(slot).iter().all(|&x| has(flags, x))
        && negatives(slot).iter().all(|&x| !has(flags, x))
}

/// 1 more than the greatest depth of the positive entries.
pub fn level(slot: &Slot, depths: &Numbers) -> u16 {
    let deepest = positives(slot).iter().map(|&x| number(depths, x)).max();
    deepest.unwrap_or(0) + 1
}
