//! Muting a rule without losing it, request 108: each answer is worked out from its text.

use crate::notation::{add, labels, mute, pages, replace, rule, table};
use oracle::book::Book;
use oracle::calls::{self, Validity};
use oracle::generate::damage::{damaged, FIELDS};
use oracle::generate::faults::{faulty, FAULTS};
use oracle::labels::Labelled;
use oracle::questions::Refusal;
use oracle::random::Random;
use oracle::relations::support;
use oracle::rules::Program;
use oracle::sound::{sound, sound_rules};
use oracle::table::{RawTable, HELD, MUTED};

/// What the slots hold from 0 on, up to the last that holds a rule.
fn holds(table: &RawTable) -> Program {
    let mut program = sound_rules(table).expect("sound rules");
    while program.last() == Some(&None) {
        program.pop();
    }
    program
}

/// The same muting on the calls and on a book with the same pages: the same answer, and the same pages after it. A
/// refused one leaves the table as it came, every byte.
fn both(table: &mut RawTable, slot: u32, mark: u32) -> Result<(), u32> {
    let before = table.clone();
    let mut book = Book::holding(sound_rules(table).expect("sound rules"));
    let answer = mute(table, slot, mark);
    assert_eq!(answer, book.mute(slot, mark), "{slot} {mark}");
    assert_eq!(sound_rules(table).as_ref(), Some(book.pages()));
    assert!(sound(table), "{slot} {mark}");
    assert!(answer.is_ok() || *table == before, "{slot} {mark}");
    answer
}

/// What a call that lends a buffer writes.
type Listing = fn(&RawTable, u32, &mut [u32]) -> Result<u32, Refusal>;

fn listed(call: Listing, table: &RawTable, atom: u32) -> Vec<u32> {
    let mut buffer = vec![0; 256];
    let count = call(table, atom, &mut buffer).expect("an accepted call");
    buffer.truncate(count as usize);
    buffer
}

#[test]
fn a_muted_fact_is_out_and_so_is_what_rests_on_it() {
    let mut table = table(&["1 <", "2 < 1", "3 < !1"]);
    assert_eq!(labels(&table), ["1 in 1 0", "2 in 2 1", "3 out"]);
    assert_eq!(both(&mut table, 0, 1), Ok(()));
    assert_eq!(labels(&table), ["1 out", "2 out", "3 in 1 2"]);
    assert_eq!(holds(&table), pages(&["~1 <", "2 < 1", "3 < !1"]));
}

#[test]
fn unmuting_gives_the_same_table_again() {
    let texts = ["1 <", "2 < 1", "3 < !1", "1 < 2", "4 < 5 6 !7 !8"];
    let before = table(&texts);
    for slot in 0..5 {
        let mut table = before.clone();
        assert_eq!(both(&mut table, slot, 1), Ok(()));
        assert_eq!(table.rules[slot as usize].state, MUTED);
        assert_ne!(table, before);
        assert_eq!(both(&mut table, slot, 0), Ok(()));
        assert_eq!(table, before, "{slot}");
    }
}

#[test]
fn a_muted_rule_keeps_its_slot_and_its_lists() {
    let mut table = table(&["9 < 7 3 !6 !2", "8 <", "8 < !6 !2"]);
    let mut expected = table.clone();
    assert_eq!(both(&mut table, 0, 1), Ok(()));
    expected.rules[0].state = 2;
    expected.kept[0].spoiler = 0;
    assert_eq!(table, expected, "and its spoiler: 9 is out either way");
    assert_eq!(both(&mut table, 2, 1), Ok(()));
    expected.rules[2].state = 2;
    assert_eq!(table, expected, "8 is in either way");
}

#[test]
fn a_muted_rule_that_would_be_spoiled_moves_no_label_and_is_told_as_muted() {
    let mut table = table(&["1 < 2", "3 <", "4 < 3 !3"]);
    let before = labels(&table);
    assert_eq!(before, ["1 out", "2 out", "3 in 1 1", "4 out"]);
    for slot in [0, 2] {
        assert!(matches!(
            calls::spoiler(&table, slot),
            Ok(Validity::Spoiled(_))
        ));
        assert_eq!(both(&mut table, slot, 1), Ok(()));
        assert_eq!(calls::spoiler(&table, slot), Ok(Validity::Muted));
        assert_eq!(labels(&table), before);
    }
}

#[test]
fn a_muted_rule_that_would_be_valid_is_told_as_muted() {
    let mut table = table(&["1 <", "2 < 1", "2 < 1 !3"]);
    assert_eq!(calls::spoiler(&table, 2), Ok(Validity::Valid));
    assert_eq!(both(&mut table, 2, 1), Ok(()));
    assert_eq!(calls::spoiler(&table, 2), Ok(Validity::Muted));
    assert_eq!(calls::spoiler(&table, 1), Ok(Validity::Valid));
    assert_eq!(both(&mut table, 0, 1), Ok(()));
    assert_eq!(calls::spoiler(&table, 0), Ok(Validity::Muted));
}

#[test]
fn an_atom_whose_rules_are_all_muted_is_out() {
    let mut table = table(&["1 <", "1 < 2", "2 <"]);
    assert_eq!(both(&mut table, 0, 1), Ok(()));
    assert_eq!(labels(&table), ["1 in 2 1", "2 in 1 2"]);
    assert_eq!(both(&mut table, 1, 1), Ok(()));
    assert_eq!(labels(&table), ["1 out", "2 in 1 2"]);
    assert_eq!(both(&mut table, 2, 1), Ok(()));
    assert_eq!(labels(&table), ["1 out", "2 out"]);
}

#[test]
fn atoms_of_muted_rules_occur_until_the_rules_are_removed() {
    let mut table = table(&["~1 < 2 !3", "~4 <"]);
    assert_eq!(labels(&table), ["1 out", "2 out", "3 out", "4 out"]);
    assert_eq!(calls::remove(&mut table, 0), Ok(()));
    assert_eq!(labels(&table), ["4 out"]);
    assert_eq!(calls::remove(&mut table, 1), Ok(()));
    assert_eq!(table, RawTable::empty());
}

#[test]
fn the_next_rule_supports_where_the_supporting_one_is_muted() {
    let mut table = table(&["2 <", "1 < 2", "1 <", "3 < 1"]);
    assert_eq!(labels(&table), ["1 in 1 2", "2 in 1 0", "3 in 2 3"]);
    assert_eq!(both(&mut table, 2, 1), Ok(()));
    assert_eq!(labels(&table), ["1 in 2 1", "2 in 1 0", "3 in 3 3"]);
    assert_eq!(both(&mut table, 1, 1), Ok(()));
    assert_eq!(labels(&table), ["1 out", "2 in 1 0", "3 out"]);
}

#[test]
fn a_lower_slot_that_is_muted_does_not_support() {
    let mut table = table(&["~1 <", "1 < !2", "1 < !3"]);
    assert_eq!(labels(&table), ["1 in 1 1", "2 out", "3 out"]);
    assert_eq!(both(&mut table, 0, 0), Ok(()));
    assert_eq!(labels(&table), ["1 in 1 0", "2 out", "3 out"]);
}

#[test]
fn t4_a_loop_falls_when_the_fact_is_muted() {
    let mut table = table(&["1 < 2", "2 < 1", "2 <"]);
    assert_eq!(both(&mut table, 2, 1), Ok(()));
    assert_eq!(labels(&table), ["1 out", "2 out"]);
}

#[test]
fn t11_with_the_new_fact_muted_is_as_before_it() {
    let rules = ["1 < 2", "2 < !3", "1 < 4", "4 < 3", "3 < 4", "3 < !5"];
    let before = labels(&table(&rules));
    let mut table = table(&[&rules[..], &["~5 <"]].concat());
    assert_eq!(labels(&table), before);
    assert_eq!(both(&mut table, 6, 0), Ok(()));
    let after = ["1 in 2 0", "2 in 1 1", "3 out", "4 out", "5 in 1 6"];
    assert_eq!(labels(&table), after);
}

#[test]
fn a_rule_that_closes_a_loop_with_a_muted_one_is_refused() {
    for (held, closing) in [
        (&["~1 < 2"][..], "2 < !1"),
        (&["~1 < !2"], "2 < 1"),
        (&["~1 < !2"], "2 < !1"),
        (&["1 < 2", "~2 < 3"], "3 < !1"),
        (&["~1 < 2", "~2 < !3", "3 < 4"], "4 < 1"),
    ] {
        let mut table = table(held);
        let before = table.clone();
        assert_eq!(add(&mut table, closing), Err(7), "{held:?} {closing}");
        assert_eq!(table, before);
    }
    let mut table = table(&["1 < 2", "~2 < 3", "5 <"]);
    assert_eq!(replace(&mut table, 2, "3 < !1"), Err(7));
    assert_eq!(replace(&mut table, 1, "3 < !1"), Ok(()), "the muted goes");
    assert_eq!(add(&mut table, "2 < 3"), Err(7));
    assert_eq!(both(&mut table, 1, 1), Ok(()));
    assert_eq!(
        add(&mut table, "2 < 3"),
        Err(7),
        "muting takes no loop away"
    );
}

#[test]
fn unmuting_meets_no_loop() {
    let mut table = table(&["~1 < !2", "~3 < 1", "4 < 3", "~5 < !4 !1"]);
    assert_eq!(
        labels(&table),
        ["1 out", "2 out", "3 out", "4 out", "5 out"]
    );
    for slot in [3, 0, 1] {
        assert_eq!(both(&mut table, slot, 0), Ok(()));
    }
    assert_eq!(
        labels(&table),
        ["1 in 1 0", "2 out", "3 in 2 1", "4 in 3 2", "5 out"]
    );
}

#[test]
fn the_same_rule_as_a_muted_one_is_refused() {
    let mut table = table(&["~5 < 1 2 !3", "6 <"]);
    for text in ["5 < 1 2 !3", "5 < 2 1 !3"] {
        assert_eq!(add(&mut table, text), Err(5), "{text}");
        assert_eq!(replace(&mut table, 1, text), Err(5), "{text}");
    }
    assert_eq!(holds(&table), pages(&["~5 < 1 2 !3", "6 <"]));
    assert_eq!(
        add(&mut table, "5 < 1 3 !2"),
        Ok(2),
        "list by list, as ever"
    );
}

#[test]
fn added_and_replaced_rules_start_unmuted() {
    let mut table = table(&["~1 <", "~2 <", "3 <"]);
    assert_eq!(calls::remove(&mut table, 0), Ok(()));
    assert_eq!(
        add(&mut table, "1 <"),
        Ok(0),
        "the same rule, removed before"
    );
    assert_eq!(holds(&table), pages(&["1 <", "~2 <", "3 <"]));
    assert_eq!(replace(&mut table, 1, "2 <"), Ok(()), "by itself");
    assert_eq!(holds(&table), pages(&["1 <", "2 <", "3 <"]));
    assert_eq!(both(&mut table, 1, 1), Ok(()));
    assert_eq!(replace(&mut table, 1, "4 < 1"), Ok(()), "by another");
    assert_eq!(labels(&table), ["1 in 1 0", "3 in 1 2", "4 in 2 1"]);
}

#[test]
fn a_refused_replacement_leaves_the_mark_and_other_changes_do_too() {
    let mut table = table(&["~1 < 2", "~2 <", "3 <"]);
    for text in ["256 <", "1 < 1 1", "3 <", "1 < !1"] {
        assert!(replace(&mut table, 0, text).is_err(), "{text}");
    }
    assert_eq!(holds(&table), pages(&["~1 < 2", "~2 <", "3 <"]));
    assert_eq!(calls::remove(&mut table, 2), Ok(()));
    assert_eq!(add(&mut table, "4 <"), Ok(2));
    assert_eq!(replace(&mut table, 2, "5 < 4"), Ok(()));
    assert_eq!(both(&mut table, 2, 7), Ok(()));
    assert_eq!(holds(&table), pages(&["~1 < 2", "~2 <", "~5 < 4"]));
    assert_eq!(both(&mut table, 1, 0), Ok(()));
    assert_eq!(holds(&table), pages(&["~1 < 2", "2 <", "~5 < 4"]));
}

#[test]
fn setting_what_is_set_already_is_accepted_and_changes_nothing() {
    let mut table = table(&["1 <", "~2 < 1", "3 < !2"]);
    let before = table.clone();
    for (slot, mark) in [(0, 0), (1, 1), (1, u32::MAX), (2, 0)] {
        assert_eq!(both(&mut table, slot, mark), Ok(()));
        assert_eq!(table, before, "{slot} {mark}");
    }
}

#[test]
fn only_the_number_0_unmutes() {
    for mark in [1, 2, 3, 128, 255, 256, 65_535, 65_536, 1 << 31, u32::MAX] {
        let mut table = table(&["1 <"]);
        assert_eq!(both(&mut table, 0, mark), Ok(()));
        assert_eq!(table.rules[0].state, MUTED, "{mark}");
        assert_eq!(both(&mut table, 0, 0), Ok(()));
        assert_eq!(table.rules[0].state, HELD, "{mark}");
    }
}

#[test]
fn the_slot_is_asked_for_its_number_and_then_for_its_rule() {
    let mut table = table(&["1 <", "~2 <"]);
    for mark in [0, 1, u32::MAX] {
        for slot in [256, 257, 65_536, u32::MAX] {
            assert_eq!(both(&mut table, slot, mark), Err(8), "{slot}");
        }
        for slot in [2, 3, 255] {
            assert_eq!(both(&mut table, slot, mark), Err(9), "{slot}");
        }
    }
}

#[test]
fn a_table_that_is_not_sound_meets_15_before_all_others_and_comes_back_as_it_was() {
    let mut random = Random::seeded(81);
    let good = table(&["1 < 2 3", "2 <", "~3 < !4", "3 < !5"]);
    let mut met = 0;
    let one_field = FIELDS.map(|field| damaged(&mut random, &good, field));
    let more = FAULTS.map(|fault| faulty(&mut random, fault));
    for unsound in one_field.iter().chain(&more).filter(|table| !sound(table)) {
        for (slot, mark) in [(0, 0), (2, 1), (9, 1), (256, 0)] {
            let mut after = unsound.clone();
            assert_eq!(mute(&mut after, slot, mark), Err(15), "{slot} {mark}");
            assert_eq!(after, *unsound);
            met += 1;
        }
    }
    assert!(met > 40, "{met}");
}

#[test]
fn muted_rules_count_as_justifications_and_consequences() {
    let table = table(&["1 < 2", "~3 < 1", "4 < 1", "~1 < !2"]);
    assert_eq!(listed(calls::justifications, &table, 1), [0, 3]);
    assert_eq!(listed(calls::justifications, &table, 3), [1]);
    assert_eq!(listed(calls::consequences, &table, 1), [3, 4]);
    assert_eq!(listed(calls::consequences, &table, 2), [1]);
}

#[test]
fn muted_rules_add_nothing_to_supports_and_repercussions() {
    let mut table = table(&["1 < 2", "~3 < 1", "4 < 1", "~4 < 2"]);
    let support_of = |table: &RawTable, atom| {
        let labelled = Labelled::of(sound_rules(table).unwrap());
        support(&labelled, atom).ascending().collect::<Vec<u32>>()
    };
    assert_eq!(support_of(&table, 3), []);
    assert_eq!(support_of(&table, 4), [1]);
    assert_eq!(listed(calls::repercussions, &table, 2), [1, 4]);
    assert_eq!(listed(calls::repercussions, &table, 1), [4]);
    assert_eq!(both(&mut table, 1, 0), Ok(()));
    assert_eq!(both(&mut table, 3, 0), Ok(()));
    assert_eq!(support_of(&table, 3), [1]);
    assert_eq!(support_of(&table, 4), [1, 2]);
    assert_eq!(listed(calls::repercussions, &table, 2), [1, 3, 4]);
    assert_eq!(listed(calls::repercussions, &table, 1), [3, 4]);
}

#[test]
fn a_reason_goes_by_the_unmuted_rules() {
    let mut table = table(&["1 <", "~2 <", "2 < 1", "3 < 2"]);
    assert_eq!(listed(calls::reason, &table, 3), [0, 2, 3]);
    assert_eq!(both(&mut table, 1, 0), Ok(()));
    assert_eq!(listed(calls::reason, &table, 3), [1, 3]);
    assert_eq!(both(&mut table, 3, 1), Ok(()));
    let not_in = calls::reason(&table, 3, &mut [0; 8]);
    assert_eq!(not_in, Err(Refusal::AtomNotIn));
}

#[test]
fn muted_rules_take_slots() {
    let mut table = RawTable::empty();
    for atom in 0..256 {
        assert_eq!(calls::add(&mut table, atom, &[], &[]), Ok(atom));
        assert_eq!(mute(&mut table, atom, 1), Ok(()));
    }
    assert!(labels(&table).iter().all(|line| line.ends_with("out")));
    assert_eq!(labels(&table).len(), 256);
    assert_eq!(add(&mut table, "1 < 2"), Err(6));
    assert_eq!(add(&mut table, "1 <"), Err(5));
    assert_eq!(both(&mut table, 255, 0), Ok(()));
    assert!(labels(&table).contains(&"255 in 1 255".to_string()));
}

#[test]
fn each_unmuted_rule_of_an_out_atom_shows_an_entry_that_really_spoils_it() {
    let table = table(&["1 <", "2 < 3", "~2 < 1", "2 < !1"]);
    assert_eq!(labels(&table), ["1 in 1 0", "2 out", "3 out"]);
    let told: Vec<Validity> = (1..4)
        .map(|slot| calls::spoiler(&table, slot).unwrap())
        .collect();
    assert!(matches!(told[0], Validity::Spoiled(spoiler) if spoiler.atom == 3));
    assert_eq!(told[1], Validity::Muted);
    assert!(matches!(told[2], Validity::Spoiled(spoiler) if spoiler.atom == 1));
}

#[test]
fn a_book_keeps_marks_with_its_pages() {
    let mut book = Book::empty();
    assert_eq!(book.mute(0, 1), Err(9));
    assert_eq!(book.add(1, &[2], &[]), Ok(0));
    assert_eq!(book.mute(0, 2), Ok(()));
    assert_eq!(book.add(1, &[2], &[]), Err(5));
    assert_eq!(book.add(2, &[], &[1]), Err(7));
    let muted = book.pages()[0].as_ref().expect("a page");
    assert_eq!((&muted.rule, muted.muted), (&rule("1 < 2"), true));
    assert_eq!(book.replace(0, 1, &[2], &[]), Ok(()));
    assert_eq!(book.pages()[..1], pages(&["1 < 2"]));
    assert_eq!(book.mute(256, 0), Err(8));
}
