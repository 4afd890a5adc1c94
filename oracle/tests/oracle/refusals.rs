//! Refusals: the order of the questions, and that a refused call leaves everything alone.

use crate::notation::{add, table};
use oracle::calls::{self, Call, Lent};
use oracle::generate::calls::Calls;
use oracle::generate::mixed_table;
use oracle::questions::Refusal;
use oracle::random::Random;
use oracle::sound::sound;
use oracle::table::RawTable;
use std::collections::BTreeMap;

#[test]
fn a_refused_call_writes_no_entry_and_hands_back_its_table_or_the_empty_one() {
    let mut random = Random::seeded(71);
    let mut refused: BTreeMap<u32, usize> = BTreeMap::new();
    for _ in 0..800 {
        let mut table = mixed_table(&mut random);
        let mut calls = Calls::on(&table, 256, 256);
        for _ in 0..10 {
            let call = calls.call(&mut random);
            let mut lent = Lent {
                numbers: (0..random.below(6)).map(|_| random.word() as u32).collect(),
                bytes: (0..random.below(6)).map(|_| random.word() as u8).collect(),
            };
            let (table_before, lent_before) = (table.clone(), lent.clone());
            if let Err(refusal) = call.make(&mut table, &mut lent) {
                let handed_back = match call {
                    Call::Load { .. } => RawTable::empty(),
                    _ => table_before,
                };
                assert_eq!((&table, &lent), (&handed_back, &lent_before), "{call:?}");
                *refused.entry(refusal.number()).or_default() += 1;
            }
        }
    }
    for number in [1, 2, 3, 4, 5, 6, 7, 8, 9, 10, 11, 12, 15, 16, 17, 18, 19] {
        assert!(
            refused.contains_key(&number),
            "{number} occurs: {refused:?}"
        );
    }
}

/// Every call that takes a table, each with a number that none has.
fn taking_a_table(large: u32) -> Vec<Call> {
    vec![
        Call::Add {
            head: large,
            positives: vec![],
            negatives: vec![],
        },
        Call::Remove { slot: large },
        Call::Replace {
            slot: large,
            head: large,
            positives: vec![],
            negatives: vec![],
        },
        Call::Mute {
            slot: large,
            mark: large,
        },
        Call::Label { atom: large },
        Call::Labels,
        Call::Rule { slot: large },
        Call::Spoiler { slot: large },
        Call::Justifications { atom: large },
        Call::Consequences { atom: large },
        Call::Repercussions { atom: large },
        Call::Reason { atom: large },
        Call::Save,
        Call::FileSent { file: large },
        Call::FileSkipped { file: large },
        Call::SkipWithdrawn { file: large },
        Call::Missing,
        Call::Complete,
    ]
}

#[test]
fn every_call_that_takes_a_table_asks_first_whether_it_is_sound() {
    let mut unsound = table(&["1 <"]);
    unsound.kept[0].depth = 2;
    for call in taking_a_table(256) {
        assert_eq!(
            call.make(&mut unsound, &mut Lent::default()),
            Err(Refusal::TableUnsound),
            "{call:?}"
        );
    }
}

#[test]
fn an_addition_asks_in_the_order_of_the_line() {
    let steps = [
        ("256 < 1 1 1 1 1 1 1 1 256", 1),
        ("255 < 1 1 1 1 1 1 1 1 256", 2),
        ("255 < 1 1 1 1 1 1 1 256", 3),
        ("255 < 1 1 1 1 1 1 1 !1", 4),
        ("255 < !1 !1", 4),
        ("1 < 2", 5),
        ("2 < !1", 7),
        ("4294967295 <", 1),
        ("1 < 4294967295", 3),
        ("65536 <", 1),
    ];
    let mut table = table(&["1 < 2"]);
    let before = table.clone();
    for (text, number) in steps {
        assert_eq!(add(&mut table, text), Err(number), "{text}");
    }
    assert_eq!(table, before);
}

#[test]
fn an_atom_may_stand_in_both_lists_and_counts_twice() {
    assert_eq!(
        add(&mut RawTable::empty(), "9 < 1 2 3 4 !1 !2 !3 !4"),
        Ok(0)
    );
    assert_eq!(
        add(&mut RawTable::empty(), "9 < 1 2 3 4 5 !1 !2 !3 !4"),
        Err(2)
    );
}

#[test]
fn slots_are_asked_for_their_number_before_their_rule() {
    let mut table = table(&["1 <"]);
    assert_eq!(calls::remove(&mut table, 256), Err(Refusal::SlotTooLarge));
    assert_eq!(calls::remove(&mut table, 255), Err(Refusal::SlotFree));
    assert_eq!(calls::mute(&mut table, 256, 1), Err(Refusal::SlotTooLarge));
    assert_eq!(calls::mute(&mut table, 255, 0), Err(Refusal::SlotFree));
    assert_eq!(calls::spoiler(&table, u32::MAX), Err(Refusal::SlotTooLarge));
    assert_eq!(calls::spoiler(&table, 1), Err(Refusal::SlotFree));
}

#[test]
fn a_short_buffer_learns_the_length_needed_and_an_exact_one_is_enough() {
    let table = table(&["1 <", "2 < 1", "3 < 2", "1 < 2"]);
    let mut exact = [7; 3];
    assert_eq!(
        calls::reason(&table, 3, &mut exact[..2]),
        Err(Refusal::BufferTooShort { needed: 3 })
    );
    assert_eq!(exact, [7; 3]);
    assert_eq!(calls::reason(&table, 3, &mut exact), Ok(3));
    assert_eq!(exact, [0, 1, 2]);
    assert_eq!(
        calls::justifications(&table, 1, &mut []),
        Err(Refusal::BufferTooShort { needed: 2 })
    );
    assert_eq!(calls::consequences(&table, 200, &mut []), Ok(0));
}

#[test]
fn a_reason_asks_for_the_atom_before_the_buffer() {
    let table = table(&["1 < 2"]);
    assert_eq!(
        calls::reason(&table, 256, &mut []),
        Err(Refusal::AtomTooLarge)
    );
    assert_eq!(calls::reason(&table, 1, &mut []), Err(Refusal::AtomNotIn));
    assert_eq!(calls::reason(&table, 77, &mut []), Err(Refusal::AtomNotIn));
}

#[test]
fn every_accepted_change_leaves_a_sound_table() {
    let mut random = Random::seeded(72);
    let mut accepted = 0;
    for _ in 0..100 {
        let mut table = oracle::generate::sound_table(&mut random);
        let mut calls = Calls::on(&table, 256, 256);
        for _ in 0..5 {
            let call = calls.call(&mut random);
            let mut lent = Lent {
                numbers: vec![0; 256],
                bytes: vec![0; 12 * 512],
            };
            accepted += usize::from(call.make(&mut table, &mut lent).is_ok());
            assert!(sound(&table), "{call:?}");
        }
    }
    assert!(accepted > 100, "{accepted}");
}
