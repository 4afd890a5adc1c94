//! The questions that calls ask, and the refusals that follow a "no".

use crate::limits::{ATOMS, ENTRIES};
use crate::rules::Rule;

/// Which question was answered "no"; 11 also carries the length needed.
#[derive(Clone, Copy, PartialEq, Eq, Debug)]
pub enum Refusal {
    HeadTooLarge,
    TooManyEntries,
    EntryTooLarge,
    RepeatedEntry,
    SameRule,
    TableFull,
    NegativeCycle,
    SlotTooLarge,
    SlotFree,
    AtomTooLarge,
    BufferTooShort {
        needed: u32,
    },
    AtomNotIn,
    /// Not sound; or, of a call of a checklist, with rules that are none.
    TableUnsound,
    WrongLength,
    WrongChecksum,
    WrongBlock,
    WrongRecord,
    FileNotListed,
    WrongFileCount,
    /// Sending or skipping what stands already, or withdrawing what does not stand.
    MarkUnchanged,
}

impl Refusal {
    /// The number of the question (specification 3.2).
    pub fn number(self) -> u32 {
        match self {
            Refusal::HeadTooLarge => 1,
            Refusal::TooManyEntries => 2,
            Refusal::EntryTooLarge => 3,
            Refusal::RepeatedEntry => 4,
            Refusal::SameRule => 5,
            Refusal::TableFull => 6,
            Refusal::NegativeCycle => 7,
            Refusal::SlotTooLarge => 8,
            Refusal::SlotFree => 9,
            Refusal::AtomTooLarge => 10,
            Refusal::BufferTooShort { .. } => 11,
            Refusal::AtomNotIn => 12,
            Refusal::TableUnsound => 15,
            Refusal::WrongLength => 16,
            Refusal::WrongChecksum => 17,
            Refusal::WrongBlock => 18,
            Refusal::WrongRecord => 19,
            Refusal::FileNotListed => 20,
            Refusal::WrongFileCount => 21,
            Refusal::MarkUnchanged => 22,
        }
    }

    /// The refusal of a file, by its number.
    pub fn of_file(number: u32) -> Refusal {
        match number {
            16 => Refusal::WrongLength,
            17 => Refusal::WrongChecksum,
            18 => Refusal::WrongBlock,
            19 => Refusal::WrongRecord,
            _ => unreachable!("a file meets 16 to 19, not {number}"),
        }
    }
}

/// Questions 1 to 4 of a head and two lists in any order: the rule they make, or the first
/// refusal.
pub fn rule_from(head: u32, positives: &[u32], negatives: &[u32]) -> Result<Rule, Refusal> {
    let too_large = |atom: u32| atom as usize >= ATOMS;
    if too_large(head) {
        return Err(Refusal::HeadTooLarge);
    }
    if positives.len() + negatives.len() > ENTRIES {
        return Err(Refusal::TooManyEntries);
    }
    if positives
        .iter()
        .chain(negatives)
        .any(|&entry| too_large(entry))
    {
        return Err(Refusal::EntryTooLarge);
    }
    if has_repeat(positives) || has_repeat(negatives) {
        return Err(Refusal::RepeatedEntry);
    }
    Ok(Rule::of(head, positives, negatives))
}

fn has_repeat(list: &[u32]) -> bool {
    list.iter()
        .enumerate()
        .any(|(place, atom)| list[..place].contains(atom))
}
