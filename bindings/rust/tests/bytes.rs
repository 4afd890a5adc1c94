//! The bytes of a table: the same for the same rules in the same slots, whatever lay in memory before, so that a table
//! can be stored, compared and hashed.

mod common;

use common::Random;
use std::collections::HashSet;
use std::hint::black_box;
use yeqontur::raw::{self, Table as Fields};
use yeqontur::{Refusal, Rule, Table};

/// Leaves bytes of this kind on the stack where later calls have their frames.
#[inline(never)]
fn litter(byte: u8) {
    black_box([byte; 120_000]);
}

/// A table with these rules in these slots, made by another order of calls: every slot is filled first, with rules of an
/// atom that none of them names; then each slot is freed and takes its rule, the highest first.
fn rebuilt(rules: &[Rule]) -> Table {
    let mut table = Table::new();
    for atom in 0..raw::SLOTS as u32 {
        table.add(250, &[atom], &[]).expect("a free slot");
    }
    for slot in (0..raw::SLOTS as u32).rev() {
        litter(slot as u8);
        table.remove(slot).expect("a held slot");
        let rule = rules.iter().find(|rule| rule.slot == slot);
        let added = rule.map(|r| table.add(r.head, &r.positives, &r.negatives));
        assert!(added.is_none_or(|told| told.is_ok()), "{rule:?}: {added:?}");
        if rule.is_some_and(|r| r.muted) {
            assert_eq!(table.mute(slot), Ok(()));
        }
    }
    table
}

#[test]
fn the_empty_table_is_all_zero() {
    litter(0xa5);
    assert_eq!(Table::new().as_raw().as_bytes(), &[0; Fields::BYTES]);
    assert_eq!(
        Table::try_from(Fields::from_bytes(&[0; Fields::BYTES])),
        Ok(Table::new())
    );
}

#[test]
fn the_same_rules_in_the_same_slots_are_the_same_bytes() {
    let mut random = Random(4);
    for round in 0..20 {
        litter(round);
        let table = random.muted_table(200, 40, 3);
        let rules: Vec<Rule> = table.rules().collect();
        let again = rebuilt(&rules);
        assert!(table.as_raw().as_bytes() == again.as_raw().as_bytes());
        assert_eq!(HashSet::from([table, again]).len(), 1);
    }
}

#[test]
fn stored_bytes_come_back_as_the_table() {
    let mut random = Random(5);
    for _ in 0..20 {
        let table = random.table(60, 20);
        let mut stored = *table.as_raw().as_bytes();
        assert_eq!(Table::try_from(Fields::from_bytes(&stored)), Ok(table));
        stored[0] = 3;
        let damaged = Table::try_from(Fields::from_bytes(&stored));
        assert_eq!(damaged, Err(Refusal::TableUnsound));
    }
}
