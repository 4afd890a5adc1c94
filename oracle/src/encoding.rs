//! Raw tables as bytes: the numbers of each slot in their order, each of two bytes, low byte first. A table in the memory
//! of an x86-64 machine has the same bytes.

use crate::limits::{ENTRIES, SLOTS};
use crate::table::{Kept, RawRule, RawTable};

/// How many numbers a slot has: four, the entries, and the two that it keeps.
const WIDTH: usize = 4 + ENTRIES + 2;

const SLOT_BYTES: usize = 2 * WIDTH;

/// The numbers of a slot.
fn numbers(rule: &RawRule, kept: &Kept) -> [u16; WIDTH] {
    let mut numbers = [0; WIDTH];
    numbers[..4].copy_from_slice(&[rule.state, rule.head, rule.positives, rule.negatives]);
    numbers[4..4 + ENTRIES].copy_from_slice(&rule.entries);
    numbers[4 + ENTRIES..].copy_from_slice(&[kept.depth, kept.spoiler]);
    numbers
}

/// The rule that the numbers of a slot are.
fn rule_of(numbers: &[u16]) -> RawRule {
    RawRule {
        state: numbers[0],
        head: numbers[1],
        positives: numbers[2],
        negatives: numbers[3],
        entries: std::array::from_fn(|entry| numbers[4 + entry]),
    }
}

/// What the numbers of a slot keep.
fn kept_of(numbers: &[u16]) -> Kept {
    Kept {
        depth: numbers[4 + ENTRIES],
        spoiler: numbers[5 + ENTRIES],
    }
}

impl RawTable {
    /// How many numbers a table has.
    pub const NUMBERS: usize = SLOTS * WIDTH;

    /// How many bytes an encoded table has.
    pub const BYTES: usize = SLOTS * SLOT_BYTES;

    /// The numbers of all slots, in their order.
    pub fn to_numbers(&self) -> Vec<u16> {
        let slots = self.rules.iter().zip(&self.kept);
        slots.flat_map(|(rule, kept)| numbers(rule, kept)).collect()
    }

    /// The table that has these numbers, or `None` if there are too few or too many.
    pub fn from_numbers(numbers: &[u16]) -> Option<RawTable> {
        let slots = || numbers.chunks_exact(WIDTH);
        (numbers.len() == RawTable::NUMBERS).then(|| RawTable {
            rules: slots().map(rule_of).collect(),
            kept: slots().map(kept_of).collect(),
        })
    }

    pub fn to_bytes(&self) -> Vec<u8> {
        let numbers = self.to_numbers().into_iter();
        numbers.flat_map(u16::to_le_bytes).collect()
    }

    /// The table that the bytes encode, or `None` if there are too few or too many.
    pub fn from_bytes(bytes: &[u8]) -> Option<RawTable> {
        let pairs = bytes.chunks_exact(2);
        let is_even = pairs.remainder().is_empty();
        let numbers: Vec<u16> = pairs
            .map(|pair| u16::from_le_bytes([pair[0], pair[1]]))
            .collect();
        is_even.then(|| RawTable::from_numbers(&numbers)).flatten()
    }
}
