//! The same rule in another order is the same rule.

use crate::notation::{add, labels, table};
use oracle::book::Book;
use oracle::calls;
use oracle::generate::programs::small;
use oracle::random::Random;
use oracle::rules::held;
use oracle::sound::sound;
use oracle::table::RawTable;

/// The entries that a slot holds, the positive list first.
fn entries(table: &RawTable, slot: usize) -> Vec<u16> {
    let raw = &table.rules[slot];
    raw.entries[..usize::from(raw.positives + raw.negatives)].to_vec()
}

/// Every order of the list: each order of the rest, with the first atom put at each place.
fn orders(list: &[u32]) -> Vec<Vec<u32>> {
    let Some((&first, rest)) = list.split_first() else {
        return vec![Vec::new()];
    };
    let mut found = Vec::new();
    for order in orders(rest) {
        let with_first = |place| [&order[..place], &[first], &order[place..]].concat();
        found.extend((0..list.len()).map(with_first));
    }
    found
}

#[test]
fn removing_the_one_slot_takes_the_label_away() {
    let mut table = table(&["1 <", "2 <", "5 < 1 2"]);
    let before = table.clone();
    assert_eq!(add(&mut table, "5 < 2 1"), Err(5));
    assert_eq!(table, before);
    assert_eq!(labels(&table), ["1 in 1 0", "2 in 1 1", "5 in 2 2"]);
    assert_eq!(calls::remove(&mut table, 2), Ok(()));
    assert_eq!(labels(&table), ["1 in 1 0", "2 in 1 1"]);
    assert_eq!(add(&mut table, "5 < 2 1"), Ok(2));
    assert_eq!(table, before);
}

#[test]
fn atoms_are_compared_list_by_list() {
    let rules = ["5 < 1 !2", "5 < 2 !1", "5 < 2 1", "5 < !2 !1", "5 < 1 2 !1"];
    let mut table = table(&rules);
    for text in rules {
        assert_eq!(add(&mut table, text), Err(5), "{text}");
    }
    assert_eq!(add(&mut table, "5 < 2 1 !1"), Err(5));
    assert_eq!(add(&mut table, "5 < 1 !1 !2"), Ok(5));
}

#[test]
fn a_rule_is_held_ascending_in_the_slot_and_on_the_page() {
    let table = table(&["5 < 3 1 2 !9 !0 !4"]);
    assert_eq!(entries(&table, 0), [1, 2, 3, 0, 4, 9]);
    let mut book = Book::empty();
    assert_eq!(book.add(5, &[3, 1, 2], &[9, 0, 4]), Ok(0));
    let page = book.pages()[0].as_ref().expect("a rule");
    assert_eq!(page.rule.entries().collect::<Vec<_>>(), [1, 2, 3, 0, 4, 9]);
}

#[test]
fn repeats_are_asked_of_the_lists_given() {
    let mut table = table(&["5 < 1 2"]);
    assert_eq!(add(&mut table, "5 < 2 1 2"), Err(4));
    assert_eq!(add(&mut table, "5 < 1 1 2"), Err(4));
    let mut book = Book::empty();
    assert_eq!(book.add(5, &[1, 2], &[]), Ok(0));
    assert_eq!(book.add(5, &[2, 1, 2], &[]), Err(4));
    assert_eq!(book.add(5, &[2, 1], &[]), Err(5));
}

#[test]
fn every_order_of_the_lists_gives_one_table_and_one_order_is_sound_in_a_slot() {
    let kept = table(&["9 < 2 5 7 8 !1 !3 !6"]);
    for positives in orders(&[2, 5, 7, 8]) {
        for negatives in orders(&[1, 3, 6]) {
            let mut added = RawTable::empty();
            assert_eq!(calls::add(&mut added, 9, &positives, &negatives), Ok(0));
            assert_eq!(added, kept);
            let list = [&positives[..], &negatives].concat();
            let mut written = kept.clone();
            (0..7).for_each(|place| written.rules[0].entries[place] = list[place] as u16);
            assert_eq!(sound(&written), written == kept, "{list:?}");
        }
    }
}

/// Is one list an order of the other?
fn reordered(one: &[u32], other: &[u32]) -> bool {
    orders(one).iter().any(|order| order == other)
}

#[test]
fn an_addition_is_refused_5_exactly_if_its_lists_are_orders_of_a_held_rules() {
    let mut random = Random::seeded(66);
    let mut seen = [0, 0];
    for _ in 0..400 {
        let program = small(&mut random, 4, 10, 16);
        let mut book = Book::empty();
        let mut named: Vec<(u32, Vec<u32>, Vec<u32>)> = Vec::new();
        for (_, rule) in held(&program).chain(held(&program)) {
            let positives: Vec<u32> = rule.positives.iter().copied().collect();
            let negatives: Vec<u32> = rule.negatives.iter().copied().collect();
            let count = random.between(1, 3);
            let positives = random.sample(&positives, count);
            let negatives = random.sample(&negatives, 3);
            let same = named.iter().any(|(head, p, n)| {
                *head == rule.head && reordered(p, &positives) && reordered(n, &negatives)
            });
            let answer = book.add(rule.head, &positives, &negatives);
            assert_eq!(answer.is_err(), same, "{rule:?} after {named:?}");
            seen[usize::from(same)] += 1;
            named.push((rule.head, positives, negatives));
        }
    }
    assert!(
        seen.iter().all(|&count| count > 300),
        "both occur: {seen:?}"
    );
}
