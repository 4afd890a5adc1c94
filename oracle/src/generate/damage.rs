//! Tables damaged in exactly one field. Most are unsound, not all: soundness decides.

use crate::limits::{ATOMS, ENTRIES, SLOTS};
use crate::random::Random;
use crate::table::RawTable;

/// A field of a slot.
#[derive(Clone, Copy, PartialEq, Eq, Debug)]
pub enum Field {
    RuleState,
    Head,
    Positives,
    Negatives,
    Entry,
    Depth,
    Spoiler,
}

pub const FIELDS: [Field; 7] = [
    Field::RuleState,
    Field::Head,
    Field::Positives,
    Field::Negatives,
    Field::Entry,
    Field::Depth,
    Field::Spoiler,
];

/// The table with one field of that kind changed, in a random slot.
pub fn damaged(random: &mut Random, table: &RawTable, field: Field) -> RawTable {
    let mut table = table.clone();
    let slot = random.below(SLOTS);
    let place = random.below(ENTRIES);
    let (rule, kept) = (&mut table.rules[slot], &mut table.kept[slot]);
    match field {
        Field::RuleState => rule.state = other_state(random, rule.state),
        Field::Head => rule.head = other(random, rule.head),
        Field::Positives => rule.positives = other_count(random, rule.positives),
        Field::Negatives => rule.negatives = other_count(random, rule.negatives),
        Field::Entry => rule.entries[place] = other(random, rule.entries[place]),
        Field::Depth => kept.depth = other(random, kept.depth),
        Field::Spoiler => kept.spoiler = other(random, kept.spoiler),
    }
    table
}

/// States of a rule, and numbers that are none: among these some that end in the byte of one.
const STATES: [u16; 12] = [0, 1, 2, 3, 4, 255, 256, 257, 258, 512, 32_768, 65_535];

/// As `other`, for the state of a rule.
fn other_state(random: &mut Random, stood: u16) -> u16 {
    let number = *random.pick(&STATES);
    if number == stood {
        other(random, stood)
    } else {
        number
    }
}

/// A number that differs from the one that stood: a neighbour, a limit, or any.
fn other(random: &mut Random, stood: u16) -> u16 {
    let number = match random.below(5) {
        0 => stood.wrapping_add(1),
        1 => stood.wrapping_sub(1),
        2 => *random.pick(&[0, 1, 2, 255, 256, 257, 258, 65_535]),
        3 => random.below(ATOMS) as u16,
        _ => random.word() as u16,
    };
    if number == stood {
        stood.wrapping_add(1)
    } else {
        number
    }
}

/// As `other`, for a count; among them some that end in the byte of a fitting one.
fn other_count(random: &mut Random, stood: u16) -> u16 {
    let number = match random.below(5) {
        0 => stood.wrapping_add(1),
        1 => stood.wrapping_sub(1),
        2 => *random.pick(&[0, 1, 2, 3, 8, 9, 128, 255, 256, 65_535]),
        3 => stood.wrapping_add(256),
        _ => random.word() as u16,
    };
    if number == stood {
        stood.wrapping_add(1)
    } else {
        number
    }
}
