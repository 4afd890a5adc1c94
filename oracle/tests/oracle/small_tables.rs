//! The small tables T1 to T13 (specification 10.1), every step of them.

use crate::notation::{add, labels, program, table};
use oracle::calls::{add as add_rule, remove, repercussions};
use oracle::limits::SLOTS;
use oracle::model::admissible_models;
use oracle::questions::Refusal;
use oracle::sound::sound;
use oracle::table::RawTable;

#[test]
fn t1_in_the_empty_table_every_atom_is_absent() {
    assert_eq!(labels(&RawTable::empty()), Vec::<String>::new());
}

#[test]
fn t2_a_fact_and_what_follows_from_it() {
    assert_eq!(labels(&table(&["1 <", "2 < 1"])), ["1 in 1 0", "2 in 2 1"]);
}

#[test]
fn t3_a_positive_loop_holds_nothing_up() {
    assert_eq!(labels(&table(&["1 < 2", "2 < 1"])), ["1 out", "2 out"]);
}

#[test]
fn t4_a_loop_falls_when_the_fact_goes() {
    let mut table = table(&["1 < 2", "2 < 1", "2 <"]);
    assert_eq!(labels(&table), ["1 in 2 0", "2 in 1 2"]);
    assert_eq!(remove(&mut table, 2), Ok(()));
    assert_eq!(labels(&table), ["1 out", "2 out"]);
}

#[test]
fn t5_a_negative_entry_spoils_once_it_is_in() {
    let mut table = table(&["1 < !2"]);
    assert_eq!(labels(&table), ["1 in 1 0", "2 out"]);
    assert_eq!(add(&mut table, "2 <"), Ok(1));
    assert_eq!(labels(&table), ["1 out", "2 in 1 1"]);
}

#[test]
fn t6_negations_one_above_the_other() {
    assert_eq!(
        labels(&table(&["1 < !2", "2 < !3"])),
        ["1 out", "2 in 1 1", "3 out"]
    );
}

#[test]
fn t7_the_lowest_slot_supports() {
    assert_eq!(
        labels(&table(&["2 <", "3 <", "1 < 3", "1 < 2"])),
        ["1 in 2 2", "2 in 1 0", "3 in 1 1"]
    );
}

#[test]
fn t8_a_later_fact_changes_depth_and_support() {
    let mut table = table(&["2 <", "1 < 2", "3 < 1"]);
    assert_eq!(labels(&table), ["1 in 2 1", "2 in 1 0", "3 in 3 2"]);
    assert_eq!(add(&mut table, "3 <"), Ok(3));
    assert_eq!(labels(&table), ["1 in 2 1", "2 in 1 0", "3 in 1 3"]);
}

#[test]
fn t9_a_rule_may_rest_on_its_head_but_not_negate_it() {
    assert_eq!(labels(&table(&["1 < 1"])), ["1 out"]);
    assert_eq!(add(&mut RawTable::empty(), "1 < !1"), Err(7));
}

#[test]
fn t10_a_loop_through_two_negations_is_refused_though_it_has_two_models() {
    let mut table = table(&["1 < 2", "2 < !3"]);
    assert_eq!(add(&mut table, "3 < !1"), Err(7));
    assert_eq!(labels(&table), ["1 in 2 0", "2 in 1 1", "3 out"]);
    assert_eq!(
        admissible_models(&program(&["1 < 2", "2 < !3", "3 < !1"])).len(),
        2
    );
}

#[test]
fn t11_example_4_before_and_after_the_new_fact() {
    let mut table = table(&["1 < 2", "2 < !3", "1 < 4", "4 < 3", "3 < 4", "3 < !5"]);
    assert_eq!(
        labels(&table),
        ["1 in 3 2", "2 out", "3 in 1 5", "4 in 2 3", "5 out"]
    );
    assert_eq!(add(&mut table, "5 <"), Ok(6));
    assert_eq!(
        labels(&table),
        ["1 in 2 0", "2 in 1 1", "3 out", "4 out", "5 in 1 6"]
    );
}

#[test]
fn t12_heads_and_entries_at_the_limits() {
    assert_eq!(add(&mut RawTable::empty(), "255 <"), Ok(0));
    assert_eq!(add(&mut RawTable::empty(), "256 <"), Err(1));
    assert_eq!(add(&mut RawTable::empty(), "0 < 1 2 3 4 5 6 7 8"), Ok(0));
    assert_eq!(add(&mut RawTable::empty(), "0 < 1 2 3 4 5 6 7 8 9"), Err(2));
    assert_eq!(
        add(&mut RawTable::empty(), "0 < 1 2 3 4 5 6 7 8 !256"),
        Err(2)
    );
    assert_eq!(
        add(&mut RawTable::empty(), "0 < 1 2 3 4 5 6 7 !256"),
        Err(3)
    );
}

#[test]
fn t12_a_full_table_refuses_a_new_rule_before_it_looks_for_loops() {
    let mut table = RawTable::empty();
    for atom in 0..SLOTS as u32 {
        assert_eq!(
            add_rule(&mut table, atom, &[(atom + 1) % 256], &[]),
            Ok(atom)
        );
    }
    let full = table.clone();
    assert_eq!(add(&mut table, "1 <"), Err(6));
    assert_eq!(add(&mut table, "1 < 2"), Err(5));
    assert_eq!(add(&mut table, "1 < !1"), Err(6));
    assert_eq!(table, full);
    assert!(sound(&table));
}

#[test]
fn t13_an_atom_may_be_among_its_own_repercussions() {
    let table = table(&["1 < 2", "2 < 1"]);
    let mut buffer = [9; 3];
    assert_eq!(repercussions(&table, 1, &mut buffer), Ok(2));
    assert_eq!(buffer, [1, 2, 9]);
    assert_eq!(
        repercussions(&table, 1, &mut buffer[..1]),
        Err(Refusal::BufferTooShort { needed: 2 })
    );
}
