//! Any bytes are a table: every call answers 15 or a result, and hands back what it refused.

mod common;

use common::{word, Place, Random};
use yeqontur::raw::{self, List};
use yeqontur::{Refusal, Table};

const LISTS: [List; 4] = [
    List::Justifications,
    List::Consequences,
    List::Repercussions,
    List::Reason,
];

/// A sound table with one number changed to anything.
fn damaged(table: &Table, random: &mut Random) -> raw::Table {
    let mut fields = *table.as_raw();
    let (slot, place) = (random.below(12), random.below(14));
    let number = random.word() as u16 >> random.below(16);
    fields.words[(14 * slot + place) as usize] = number;
    fields
}

/// Every call agrees on whether the table is sound; where it is not, the table comes back and no buffer is written.
fn refused_alike(fields: &raw::Table, random: &mut Random) -> bool {
    let unsound = Table::try_from(*fields) == Err(Refusal::TableUnsound);
    let number = random.below(300);
    let added = raw::add(fields, number, &[1, 2], &[3]);
    let removed = raw::remove(fields, number);
    let replaced = raw::replace(fields, number, 1, &[2], &[]);
    let muted = raw::mute(fields, number, random.word() as u32 & 1);
    let mut refusals = vec![
        added.refused,
        removed.refused,
        replaced.refused,
        muted.refused,
        raw::label(fields, number).refused,
        raw::rule(fields, number).refused,
        raw::spoiler(fields, number).refused,
    ];
    let mut labels = [7; raw::LABEL_NUMBERS];
    refusals.push(raw::labels(fields, &mut labels).refused);
    assert!(!unsound || labels == [7; raw::LABEL_NUMBERS]);
    for which in LISTS {
        let mut buffer = [7; 300];
        refusals.push(raw::list(which, fields, number, &mut buffer).refused);
        assert!(!unsound || buffer == [7; 300]);
    }
    let mut file = [7; raw::FILE_BYTES];
    refusals.push(raw::save(fields, &mut file).refused);
    assert!(!unsound || file == [7; raw::FILE_BYTES]);
    assert!(
        refusals.iter().all(|&r| (r == 15) == unsound),
        "{refusals:?}"
    );
    for table in [added.table, removed.table, replaced.table, muted.table] {
        assert!(!unsound || table == *fields);
    }
    unsound
}

#[test]
fn random_bytes() {
    let mut random = Random(1);
    for _ in 0..2000 {
        let fields = random.fields();
        assert!(refused_alike(&fields, &mut random));
    }
}

#[test]
fn one_number_changed() {
    let mut random = Random(2);
    let mut unsound = 0;
    for _ in 0..40 {
        let table = random.muted_table(40, 12, 4);
        for _ in 0..100 {
            let fields = damaged(&table, &mut random);
            unsound += usize::from(refused_alike(&fields, &mut random));
        }
    }
    assert!((1000..4000).contains(&unsound), "{unsound} of 4000");
}

/// No number but 0, 1 and 2 is a state; and a table with a rule that is muted by hand is sound exactly if it is the one
/// that muting makes.
#[test]
fn one_state_changed() {
    let mut random = Random(16);
    let mut sound = 0;
    for _ in 0..20 {
        let table = random.table(40, 12);
        for slot in 0..table.rules().count() {
            let mut fields = *table.as_raw();
            for state in [3, 4, 128, 129, 256, 257, 258, u16::MAX] {
                *word(&mut fields, slot, Place::State) = state;
                assert!(refused_alike(&fields, &mut random), "state {state}");
            }
            *word(&mut fields, slot, Place::State) = 2;
            let muted = raw::mute(table.as_raw(), slot as u32, 1).table;
            assert_eq!(refused_alike(&fields, &mut random), fields != muted);
            sound += usize::from(fields == muted);
        }
    }
    assert!(sound > 30, "{sound} tables");
}

#[test]
fn one_byte_everywhere() {
    let mut random = Random(3);
    for byte in 0..=255 {
        let fields = raw::Table::from_bytes(&[byte; raw::Table::BYTES]);
        assert_eq!(refused_alike(&fields, &mut random), byte != 0);
    }
}
