//! Lists of drawn calls, made by the slow engine, for tests that count what the calls come to.

use crate::calls::{Call, Lent};
use crate::generate::calls::Calls;
use crate::generate::{mixed_table, sound_table};
use crate::limits::{ATOMS, BLOCKS, BLOCK_BYTES};
use crate::questions::Refusal;
use crate::random::Random;
use crate::table::RawTable;

/// Makes so many drawn calls on the table, each on what the last left, with buffers that are never too short. Hands on
/// each call with the table that it got and the number of its refusal, 0 where it was accepted.
pub fn follow(
    random: &mut Random,
    mut table: RawTable,
    count: usize,
    mut note: impl FnMut(&RawTable, &Call, u32),
) {
    let mut drawn = Calls::on(&table, 40, 80);
    let mut lent = Lent {
        numbers: vec![0; ATOMS],
        bytes: vec![0; BLOCKS * BLOCK_BYTES],
    };
    for _ in 0..count {
        let call = drawn.call(random);
        let before = table.clone();
        let answer = call.make(&mut table, &mut lent);
        note(&before, &call, answer.err().map_or(0, Refusal::number));
    }
}

/// So many such lists of `count` calls: by turns on a table of any kind, on a sound one and on the empty one.
pub fn follow_lists(
    random: &mut Random,
    lists: usize,
    count: usize,
    mut note: impl FnMut(&RawTable, &Call, u32),
) {
    for list in 0..lists {
        let table = match list % 3 {
            0 => mixed_table(random),
            1 => sound_table(random),
            _ => RawTable::empty(),
        };
        follow(random, table, count, &mut note);
    }
}
