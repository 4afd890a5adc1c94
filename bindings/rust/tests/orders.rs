//! The same rule in another order is the same rule, and each list is kept ascending.

mod common;

use common::{swap_entries, table, Random};
use yeqontur::{raw, Label, Refusal, Rule, Table};

#[test]
fn removing_the_one_slot_takes_the_label_away() {
    let mut t = table(&[(1, &[], &[]), (2, &[], &[]), (5, &[1, 2], &[])]);
    let before = t.clone();
    assert_eq!(t.add(5, &[2, 1], &[]), Err(Refusal::SameRule));
    assert_eq!(t.rules().count(), 3);
    assert_eq!(t, before);
    assert_eq!(t.justifications(5), Ok(vec![2]));
    assert_eq!(t.remove(2), Ok(()));
    assert_eq!(t.label(5), Ok(Label::Absent));
    assert_eq!(t.add(5, &[2, 1], &[]), Ok(2));
    assert_eq!(t, before);
}

#[test]
fn atoms_are_compared_list_by_list() {
    let mut t = table(&[
        (5, &[1], &[2]),
        (5, &[2], &[1]),
        (5, &[2, 1], &[]),
        (5, &[], &[2, 1]),
    ]);
    for slot in 0..4 {
        let Rule {
            head,
            mut positives,
            mut negatives,
            ..
        } = t.rule(slot).expect("a rule");
        positives.reverse();
        negatives.reverse();
        let told = t.add(head, &positives, &negatives);
        assert_eq!(told, Err(Refusal::SameRule), "slot {slot}");
    }
}

#[test]
fn lists_come_back_ascending_each_by_itself() {
    let t = table(&[(5, &[3, 1, 2], &[]), (6, &[9, 4], &[7, 0, 8])]);
    let written: Vec<String> = t.rules().map(|rule| rule.to_string()).collect();
    let expected = ["5 < 1, 2, 3", "6 < 4, 9, not 0, not 7, not 8"];
    assert_eq!(written, expected);
    let told = raw::rule(t.as_raw(), 1);
    assert_eq!(told.entries, [4, 9, 0, 7, 8, 0, 0, 0]);
}

#[test]
fn repeats_are_asked_of_the_lists_given() {
    let mut t = table(&[(5, &[1, 2], &[])]);
    assert_eq!(t.add(5, &[2, 1, 2], &[]), Err(Refusal::RepeatedEntry));
    assert_eq!(t.add(5, &[2, 1], &[2]), Ok(1));
}

/// A random order of the list.
fn shuffled(random: &mut Random, list: &[u32]) -> Vec<u32> {
    let mut rest = list.to_vec();
    let mut order = Vec::new();
    while !rest.is_empty() {
        order.push(rest.swap_remove(random.below(rest.len() as u32) as usize));
    }
    order
}

#[test]
fn any_order_of_the_lists_makes_the_same_bytes() {
    let mut random = Random(10);
    for _ in 0..40 {
        let t = random.table(120, 20);
        let mut again = Table::new();
        for rule in t.rules() {
            let (p, n) = (
                shuffled(&mut random, &rule.positives),
                shuffled(&mut random, &rule.negatives),
            );
            assert_eq!(again.add(rule.head, &p, &n), Ok(rule.slot));
        }
        assert!(again.as_raw().as_bytes() == t.as_raw().as_bytes());
    }
}

/// Are the fields refused (15), by `Table` and by an addition, which hands them back?
fn unsound(fields: &raw::Table) -> bool {
    let told = raw::add(fields, 9, &[], &[]);
    assert_eq!(told.refused == 15, Table::try_from(*fields).is_err());
    assert!(told.refused != 15 || told.table == *fields);
    told.refused == 15
}

#[test]
fn two_entries_of_a_list_swapped_by_hand_are_not_sound() {
    let t = table(&[(9, &[5, 2, 4], &[6, 3, 1])]);
    for (one, other) in [(0, 1), (1, 2), (0, 2), (3, 4), (4, 5), (3, 5)] {
        let mut fields = *t.as_raw();
        swap_entries(&mut fields, 0, one, other);
        assert!(unsound(&fields), "{one} and {other}");
    }
}

#[test]
fn the_same_rule_twice_is_not_sound_in_any_order() {
    let t = table(&[(9, &[2, 4], &[])]);
    let mut fields = *t.as_raw();
    fields.words.copy_within(..14, 14);
    assert!(unsound(&fields));
    swap_entries(&mut fields, 1, 0, 1);
    assert!(unsound(&fields));
}
