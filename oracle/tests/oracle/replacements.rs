//! Replacing a rule in one go, request 107: each answer is worked out from its text.

use crate::notation::{add, labels, page, pages, replace, table};
use oracle::book::Book;
use oracle::calls::{self, Validity};
use oracle::generate::damage::{damaged, FIELDS};
use oracle::generate::faults::{faulty, FAULTS};
use oracle::limits::SLOTS;
use oracle::random::Random;
use oracle::rules::Program;
use oracle::sheet::run;
use oracle::sound::{sound, sound_rules};
use oracle::table::RawTable;

/// What the slots hold from 0 on, up to the last that holds a rule.
fn holds(table: &RawTable) -> Program {
    let mut program = sound_rules(table).expect("sound rules");
    while program.last() == Some(&None) {
        program.pop();
    }
    program
}

/// The same replacement on the calls and on a book with the same pages: the same answer, and the same rules after it. A
/// refused one leaves the table as it came, every byte.
fn both(table: &mut RawTable, slot: u32, text: &str) -> Result<(), u32> {
    let before = table.clone();
    let mut book = Book::holding(sound_rules(table).expect("sound rules"));
    let answer = replace(table, slot, text);
    let (head, positives, negatives) = crate::notation::lists(text);
    let expected = book.replace(slot, head, &positives, &negatives);
    assert_eq!(answer, expected, "{slot} {text}");
    assert_eq!(sound_rules(table).as_ref(), Some(book.pages()));
    assert!(sound(table), "{slot} {text}");
    assert!(answer.is_ok() || *table == before, "{slot} {text}");
    answer
}

#[test]
fn the_new_rule_takes_the_slot_of_the_old_and_the_others_keep_theirs() {
    let mut table = table(&["1 < 2", "2 <", "3 < 1"]);
    assert_eq!(labels(&table), ["1 in 2 0", "2 in 1 1", "3 in 3 2"]);
    assert_eq!(both(&mut table, 1, "1 < !4"), Ok(()));
    assert_eq!(holds(&table), pages(&["1 < 2", "1 < !4", "3 < 1"]));
    assert_eq!(labels(&table), ["1 in 1 1", "2 out", "3 in 2 2", "4 out"]);
}

#[test]
fn a_free_slot_below_is_not_taken() {
    let mut table = table(&["1 <", "2 <", "3 <"]);
    assert_eq!(calls::remove(&mut table, 0), Ok(()));
    assert_eq!(both(&mut table, 2, "4 <"), Ok(()));
    let expected = [None, Some(page("2 <")), Some(page("4 <"))];
    assert_eq!(holds(&table), expected);
    assert_eq!(labels(&table), ["2 in 1 1", "4 in 1 2"]);
}

#[test]
fn atoms_of_the_old_rule_that_no_longer_occur_become_absent() {
    let mut table = table(&["1 < 2 !3"]);
    assert_eq!(labels(&table), ["1 out", "2 out", "3 out"]);
    assert_eq!(both(&mut table, 0, "4 < !3"), Ok(()));
    assert_eq!(labels(&table), ["3 out", "4 in 1 0"]);
}

#[test]
fn a_rule_is_replaced_by_itself_and_nothing_moves() {
    let mut table = table(&["1 < 2 3 !4 !5", "2 <", "3 <"]);
    let before = table.clone();
    for text in [
        "1 < 2 3 !4 !5",
        "1 < 3 2 !4 !5",
        "1 < 2 3 !5 !4",
        "1 < 3 2 !5 !4",
    ] {
        assert_eq!(both(&mut table, 0, text), Ok(()), "{text}");
        assert_eq!(table, before, "{text}");
    }
}

#[test]
fn the_lists_of_the_new_rule_are_kept_ascending() {
    let mut table = table(&["1 <"]);
    assert_eq!(both(&mut table, 0, "9 < 7 3 5 !6 !2"), Ok(()));
    let kept = &table.rules[0];
    assert_eq!((kept.positives, kept.negatives), (3, 2));
    assert_eq!(kept.entries, [3, 5, 7, 2, 6, 0, 0, 0]);
    assert_eq!(both(&mut table, 0, "9 < 3"), Ok(()));
    assert_eq!(table.rules[0].entries, [3, 0, 0, 0, 0, 0, 0, 0]);
}

#[test]
fn a_rule_held_in_another_slot_is_refused_in_any_order() {
    let mut table = table(&["1 < 2 3", "4 < 5"]);
    for text in ["1 < 2 3", "1 < 3 2"] {
        assert_eq!(both(&mut table, 1, text), Err(5));
    }
    assert_eq!(
        both(&mut table, 1, "1 < 2 !3"),
        Ok(()),
        "3 on the other side"
    );
    assert_eq!(both(&mut table, 1, "4 < 5"), Ok(()), "the old rule again");
}

#[test]
fn a_loop_that_only_the_old_rule_closes_is_none() {
    let mut table = table(&["1 < 2", "2 <"]);
    assert_eq!(add(&mut table, "2 < !1"), Err(7), "beside the old rule");
    assert_eq!(both(&mut table, 0, "2 < !1"), Ok(()));
    assert_eq!(labels(&table), ["1 out", "2 in 1 0"]);
}

#[test]
fn a_longer_loop_that_only_the_old_rule_closes_is_none() {
    let mut table = table(&["1 < 2", "2 < 3", "4 <"]);
    assert_eq!(both(&mut table, 2, "3 < !1"), Err(7), "4 < closes no loop");
    assert_eq!(both(&mut table, 1, "3 < !1"), Ok(()));
    assert_eq!(labels(&table), ["1 out", "2 out", "3 in 1 1", "4 in 1 2"]);
    assert_eq!(both(&mut table, 1, "2 < 3"), Ok(()), "and back");
}

#[test]
fn a_loop_without_the_old_rule_is_refused_and_the_old_rule_stays() {
    let mut table = table(&["1 < 2", "5 <"]);
    for text in ["2 < !1", "7 < !7", "7 < 7 !7"] {
        assert_eq!(both(&mut table, 1, text), Err(7), "{text}");
    }
    assert_eq!(labels(&table), ["1 out", "2 out", "5 in 1 1"]);
    assert_eq!(both(&mut table, 0, "1 < !1"), Err(7), "its own head");
    assert_eq!(both(&mut table, 1, "2 < 1"), Ok(()), "no negation");
}

#[test]
fn a_full_table_takes_a_new_rule_and_6_is_not_asked() {
    let mut table = RawTable::empty();
    for atom in 0..SLOTS as u32 {
        let entry = (atom + 1) % 256;
        assert_eq!(calls::add(&mut table, atom, &[entry], &[]), Ok(atom));
    }
    assert_eq!(add(&mut table, "1 <"), Err(6));
    assert_eq!(both(&mut table, 1, "1 < 2"), Ok(()), "by itself");
    assert_eq!(both(&mut table, 1, "3 < 4"), Err(5), "slot 3 holds it");
    assert_eq!(both(&mut table, 1, "2 < !2"), Err(7));
    assert_eq!(
        both(&mut table, 1, "2 < !1"),
        Ok(()),
        "1 rests on 2 no longer"
    );
    assert_eq!(both(&mut table, 255, "1 < 2"), Err(7), "1 rests on 2 again");
    assert_eq!(both(&mut table, 255, "255 <"), Ok(()));
    assert_eq!(holds(&table).len(), 256);
    let in_atoms = labels(&table);
    assert_eq!(
        in_atoms.iter().filter(|line| line.contains("in")).count(),
        254
    );
    assert!(in_atoms.contains(&"2 in 1 1".to_string()));
    assert!(in_atoms.contains(&"1 out".to_string()));
    assert!(in_atoms.contains(&"0 out".to_string()));
}

#[test]
fn questions_are_asked_in_the_order_of_the_line() {
    let steps = [
        (256, "256 < 1 1 1 1 1 1 1 1 256", 8),
        (65_536, "1 < 2", 8),
        (u32::MAX, "1 <", 8),
        (2, "256 < 1 1 1 1 1 1 1 1 256", 9),
        (255, "1 < 2", 9),
        (1, "256 < 1 1 1 1 1 1 1 1 256", 1),
        (1, "4294967295 <", 1),
        (1, "255 < 1 1 1 1 1 1 1 1 256", 2),
        (1, "255 < 1 1 1 1 1 1 1 256", 3),
        (1, "255 < 65536", 3),
        (1, "255 < 1 1 1 1 1 1 1 !1", 4),
        (1, "255 < !1 !1", 4),
        (1, "1 < 2", 5),
        (1, "2 < !1", 7),
    ];
    let mut table = table(&["1 < 2", "9 <"]);
    for (slot, text, number) in steps {
        assert_eq!(both(&mut table, slot, text), Err(number), "{slot} {text}");
    }
}

#[test]
fn a_table_that_is_not_sound_meets_15_before_all_others_and_comes_back_as_it_was() {
    let mut random = Random::seeded(71);
    let good = table(&["1 < 2 3", "2 <", "3 < !4"]);
    let mut met = 0;
    let one_field = FIELDS.map(|field| damaged(&mut random, &good, field));
    let more = FAULTS.map(|fault| faulty(&mut random, fault));
    for unsound in one_field.iter().chain(&more).filter(|table| !sound(table)) {
        for (slot, text) in [(0, "1 < 2 3"), (0, "256 <"), (9, "1 <"), (256, "256 <")] {
            let mut after = unsound.clone();
            assert_eq!(replace(&mut after, slot, text), Err(15), "{slot} {text}");
            assert_eq!(after, *unsound);
            met += 1;
        }
    }
    assert!(met > 40, "{met}");
}

#[test]
fn the_spoiler_of_the_slot_is_that_of_the_new_rule() {
    let mut table = table(&["1 < 2", "3 <"]);
    assert_eq!(both(&mut table, 0, "1 < 3"), Ok(()));
    assert_eq!(calls::spoiler(&table, 0), Ok(Validity::Valid));
    assert_eq!(both(&mut table, 0, "1 < !3"), Ok(()));
    assert_ne!(calls::spoiler(&table, 0), Ok(Validity::Valid));
    assert_eq!(labels(&table), ["1 out", "3 in 1 1"]);
}

#[test]
fn a_replacement_is_a_removal_and_an_addition_where_the_slot_is_the_lowest_free_one() {
    let texts = ["1 < 2", "2 < !3", "3 <"];
    for (slot, text) in [(0, "4 < 1"), (1, "2 < 3"), (2, "3 < !5"), (2, "2 < !1")] {
        let mut one = table(&texts);
        let mut two = one.clone();
        let answer = both(&mut one, slot, text);
        assert_eq!(calls::remove(&mut two, slot), Ok(()));
        assert_eq!(add(&mut two, text).map(drop), answer, "{slot} {text}");
        if answer.is_ok() {
            assert_eq!(one, two, "{slot} {text}");
        }
    }
}

fn printed(sheet: &str) -> String {
    String::from_utf8(run(sheet.as_bytes())).expect("text")
}

#[test]
fn a_sheet_prints_that_a_slot_was_replaced_or_the_refusal() {
    let sheet =
        "A 1 : 2\nA 2 :\nL\nP 1 2 : ! 3\nL\nP 0 2 : ! 3\nP 2 5 :\nP 256 5 :\nP 0 3 :  2\nL\nW 2\n";
    let expected = "slot 0\nslot 1\n1 in 2 0\n2 in 1 1\nreplaced 1\n1 in 2 0\n2 in 1 1\n3 out\n\
                    line 6 refused 5\nline 7 refused 9\nline 8 refused 8\nline 9 refused 7\n\
                    1 in 2 0\n2 in 1 1\n3 out\nwhy 1\n";
    assert_eq!(printed(sheet), expected);
}

#[test]
fn a_replacement_needs_a_slot_a_head_and_a_colon() {
    for line in [
        "P",
        "P 1",
        "P 1 2",
        "P : 1",
        "P 1 : 2",
        "P 1 2 3 :",
        "P1 2 :",
        "P 1 2:",
        "p 1 2 :",
    ] {
        assert_eq!(printed(line), "line 1 refused 13\n", "{line}");
    }
    for line in [
        "P 1 2 :",
        "P 1 2 : !",
        "  P   1   2  :  3 !  4 ",
        "P 1 300 : 300",
    ] {
        assert_eq!(printed(line), "line 1 refused 9\n", "{line}");
    }
    let long = format!("P 1 2 :{}", " 3".repeat(56));
    assert_eq!(long.len(), 119);
    assert_eq!(printed(&long), "line 1 refused 9\n");
    assert_eq!(
        printed(&format!("A 1 :\nP 0 2 :{}", " 3".repeat(56))),
        "slot 0\nline 2 refused 2\n"
    );
    assert_eq!(
        printed(&format!("P 1 2 :{}", " 3".repeat(57))),
        "line 1 refused 14\n"
    );
}
