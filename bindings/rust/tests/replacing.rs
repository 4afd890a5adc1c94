//! Replacing a rule in one go: judged without the old rule, in the same slot, and the old rule stands where it is
//! refused.

mod common;

use common::{swap_entries, table, word, Place, Random};
use yeqontur::{raw, Label, Refusal, Table};

/// Replacing is refused so, and leaves the rules and labels as they were.
fn refused(t: &mut Table, slot: u32, rule: (u32, &[u32], &[u32]), why: Refusal) {
    let before = t.clone();
    let (head, positives, negatives) = rule;
    let told = t.replace(slot, head, positives, negatives);
    assert_eq!(told, Err(why), "slot {slot}, {rule:?}");
    assert!(t.rules().eq(before.rules()) && t.labels().eq(before.labels()));
    assert_eq!(*t, before);
}

fn written(t: &Table) -> Vec<String> {
    let line = |rule: yeqontur::Rule| format!("{}: {rule}", rule.slot);
    t.rules().map(line).collect()
}

/// Slot 0 is free, and stays so.
#[test]
fn the_new_rule_takes_the_slot_of_the_old_one() {
    let mut t = table(&[(9, &[], &[]), (1, &[], &[]), (2, &[1], &[]), (4, &[2], &[])]);
    assert_eq!(t.remove(0), Ok(()));
    assert_eq!(t.replace(2, 3, &[1], &[5]), Ok(()));
    assert_eq!(written(&t), ["1: 1 <", "2: 3 < 1, not 5", "3: 4 < 2"]);
    let labels: Vec<_> = t.labels().collect();
    let expected = [
        (1, Label::In { depth: 1, slot: 1 }),
        (2, Label::Out),
        (3, Label::In { depth: 2, slot: 2 }),
        (4, Label::Out),
        (5, Label::Out),
    ];
    assert_eq!(labels, expected);
}

#[test]
fn a_rule_is_replaced_by_itself_in_any_order() {
    let mut t = table(&[(1, &[], &[]), (5, &[1, 2], &[4, 3])]);
    let before = t.clone();
    assert_eq!(t.replace(0, 1, &[], &[]), Ok(()));
    assert_eq!(t.replace(1, 5, &[1, 2], &[3, 4]), Ok(()));
    assert_eq!(t.replace(1, 5, &[2, 1], &[4, 3]), Ok(()));
    assert_eq!(t, before);
}

#[test]
fn a_rule_that_another_slot_has_is_refused() {
    let mut t = table(&[(1, &[], &[]), (5, &[1, 2], &[3]), (6, &[], &[])]);
    refused(&mut t, 0, (5, &[1, 2], &[3]), Refusal::SameRule);
    refused(&mut t, 2, (5, &[2, 1], &[3]), Refusal::SameRule);
    refused(&mut t, 1, (6, &[], &[]), Refusal::SameRule);
    assert_eq!(t.replace(0, 5, &[1], &[2, 3]), Ok(()));
}

/// Each refusal is met where later questions would be answered no as well; but for 5 and 7, of which no rule fails
/// both: one that is held closes no new loop.
#[test]
fn questions_in_their_order() {
    let mut t = table(&[(9, &[], &[]), (2, &[1], &[])]);
    let large = [256; 9];
    refused(&mut t, 256, (256, &large, &[]), Refusal::SlotTooLarge);
    refused(&mut t, 256, (256, &[], &[]), Refusal::SlotTooLarge);
    refused(&mut t, 2, (256, &large, &[]), Refusal::SlotFree);
    refused(&mut t, 255, (256, &[], &[]), Refusal::SlotFree);
    refused(&mut t, 0, (256, &large, &[]), Refusal::HeadTooLarge);
    refused(&mut t, 0, (1, &large, &[]), Refusal::TooManyEntries);
    refused(&mut t, 0, (1, &[256; 5], &[2; 4]), Refusal::TooManyEntries);
    refused(&mut t, 0, (1, &[], &[2, 256, 2]), Refusal::EntryTooLarge);
    refused(&mut t, 0, (2, &[1, 1], &[]), Refusal::RepeatedEntry);
    refused(&mut t, 0, (1, &[], &[2, 2]), Refusal::RepeatedEntry);
    refused(&mut t, 0, (2, &[1], &[]), Refusal::SameRule);
    refused(&mut t, 0, (1, &[], &[2]), Refusal::NegativeCycle);
    assert_eq!(t.replace(0, 1, &[2], &[]), Ok(()));
    assert_eq!(written(&t), ["0: 1 < 2", "1: 2 < 1"]);
    assert!(t.labels().eq([(1, Label::Out), (2, Label::Out)]));
}

/// 6 cannot happen: the rule takes the slot that the old one had.
#[test]
fn a_full_table_has_room() {
    let mut t = Table::new();
    for atom in 0..256 {
        assert_eq!(t.add(atom, &[], &[]), Ok(atom));
    }
    let before = t.clone();
    for atom in 0..256 {
        assert_eq!(t.replace(atom, atom, &[], &[]), Ok(()));
    }
    assert_eq!(t, before);
    refused(&mut t, 255, (0, &[], &[]), Refusal::SameRule);
    refused(&mut t, 255, (0, &[], &[0]), Refusal::NegativeCycle);
    assert_eq!(t.add(0, &[1], &[]), Err(Refusal::TableFull));
    assert_eq!(t.replace(255, 0, &[1], &[]), Ok(()));
    assert_eq!(t.rules().count(), 256);
    assert_eq!(t.rule(255).expect("a rule").to_string(), "0 < 1");
    assert!(t.rules().take(255).eq(before.rules().take(255)));
    assert_eq!(t.label(0), Ok(Label::In { depth: 1, slot: 0 }));
    assert_eq!(t.label(255), Ok(Label::Absent));
}

/// `1 < not 2` closes a loop with `2 < 1`, whichever of them is the old one.
#[test]
fn a_loop_that_only_the_old_rule_would_close_is_none() {
    let mut t = table(&[(1, &[3], &[]), (2, &[1], &[])]);
    assert_eq!(t.add(1, &[], &[2]), Err(Refusal::NegativeCycle));
    refused(&mut t, 0, (1, &[], &[2]), Refusal::NegativeCycle);
    assert_eq!(t.replace(1, 1, &[], &[2]), Ok(()));
    assert_eq!(t.label(1), Ok(Label::In { depth: 1, slot: 1 }));
    assert_eq!(t.add(2, &[1], &[]), Err(Refusal::NegativeCycle));
    assert_eq!(t.replace(1, 2, &[1], &[]), Ok(()));
    assert_eq!(t, table(&[(1, &[3], &[]), (2, &[1], &[])]));
}

/// 15 comes before 8, and the fields come back as they came.
#[test]
fn a_damaged_table_is_handed_back() {
    let t = table(&[(1, &[], &[]), (2, &[3, 1], &[])]);
    let mut label = *t.as_raw();
    *word(&mut label, 0, Place::Depth) = 2;
    let mut order = *t.as_raw();
    swap_entries(&mut order, 1, 0, 1);
    for fields in [label, order, raw::Table::from_bytes(&[0xa5; 7168])] {
        for (slot, head) in [(0, 1), (0, 256), (2, 1), (256, 256)] {
            let told = raw::replace(&fields, slot, head, &[], &[]);
            assert_eq!(told.refused, 15);
            assert!(told.table == fields);
        }
    }
}

/// Where the old rule's slot is the lowest free one without it, removing and adding give the same table; and where the
/// addition is refused, they lose the old rule, and replacing does not.
#[test]
fn as_removing_and_adding_where_the_slot_is_the_lowest_free_one() {
    let mut random = Random(107);
    let (mut done, mut lost) = (0, 0);
    for _ in 0..1000 {
        let before = random.table(24, 6);
        let slot = random.below(before.rules().count() as u32);
        let (p, n, head) = (random.list(3, 7), random.list(2, 7), random.below(6));
        let (mut two, mut one) = (before.clone(), before.clone());
        assert_eq!(two.remove(slot), Ok(()));
        let added = two.add(head, &p, &n);
        assert_eq!(one.replace(slot, head, &p, &n), added.map(|_| ()));
        assert!(added.is_err() || added == Ok(slot));
        assert_eq!(one, if added.is_ok() { two } else { before });
        *(if added.is_ok() { &mut done } else { &mut lost }) += 1;
    }
    assert!(done > 100 && lost > 100, "{done} replaced, {lost} refused");
}

/// In a table with free slots below: every other slot keeps its rule, and the labels are those that loading finds.
#[test]
fn other_slots_keep_their_rules_and_labels_are_found_anew() {
    let mut random = Random(108);
    for _ in 0..300 {
        let mut t = random.table(40, 9);
        for slot in 0..5 {
            assert_eq!(t.remove(slot), Ok(()));
        }
        let others: Vec<_> = t.rules().filter(|rule| rule.slot != 6).collect();
        let (p, n) = (random.list(3, 9), random.list(2, 9));
        if t.replace(6, random.below(9), &p, &n).is_ok() {
            assert!(t.rules().filter(|rule| rule.slot != 6).eq(others));
            assert!(t.rule(6).is_ok());
        }
        assert_eq!(Table::load(&t.save()), Ok(t));
    }
}
