//! The deposit checklist: its rules by hand, its refusals in their order, and what is none.

use crate::notation::{add, labels, page, program, table};
use oracle::calls::{self, Call, Lent};
use oracle::checklist::{
    complete, file_sent, file_skipped, frame_rule, missing, open, skip_withdrawn,
};
use oracle::generate::table_of;
use oracle::labels::Label;
use oracle::questions::Refusal;
use oracle::rules::{held, Page, Program};
use oracle::sound::{sound, sound_rules};
use oracle::table::RawTable;

const UNSOUND: Refusal = Refusal::TableUnsound;

fn opened(files: u32) -> RawTable {
    let (answer, table) = open(files);
    assert_eq!(answer, Ok(()));
    table
}

fn rules(table: &RawTable) -> Program {
    sound_rules(table).expect("a sound table")
}

/// The files that are listed as missing.
fn listed(table: &RawTable) -> Vec<u32> {
    let mut buffer = [1_000; 61];
    let count = missing(table, &mut buffer).expect("a checklist") as usize;
    assert!(buffer[count..].iter().all(|&entry| entry == 1_000));
    buffer[..count].to_vec()
}

/// No call of a checklist takes the table, whatever the file and the buffer are; each hands it back.
fn assert_none(table: &RawTable, what: &str) {
    let mut after = table.clone();
    for file in [0, 1, 2, 3, 60, 61, u32::MAX] {
        assert_eq!(file_sent(&mut after, file), Err(UNSOUND), "{what}");
        assert_eq!(file_skipped(&mut after, file), Err(UNSOUND), "{what}");
        assert_eq!(skip_withdrawn(&mut after, file), Err(UNSOUND), "{what}");
    }
    assert_eq!(missing(&after, &mut []), Err(UNSOUND), "{what}");
    assert_eq!(missing(&after, &mut [0; 60]), Err(UNSOUND), "{what}");
    assert_eq!(complete(&after), Err(UNSOUND), "{what}");
    assert_eq!(after, *table, "{what}");
}

#[test]
fn the_frame_of_one_file() {
    let table = opened(1);
    assert_eq!(rules(&table), program(&["0 <", "3 < 0 1 !2"]));
    assert_eq!(labels(&table), ["0 in 1 0", "1 out", "2 out", "3 out"]);
    assert!(sound(&table));
    assert_eq!(complete(&table), Ok(false));
    assert_eq!(listed(&table), [1]);
}

#[test]
fn the_frame_of_three_files() {
    let mut table = opened(3);
    let frame = ["0 <", "3 < 0 1 !2", "6 < 3 4 !5", "9 < 6 7 !8"];
    assert_eq!(rules(&table), program(&frame));
    for file in [2, 1, 3] {
        assert_eq!(complete(&table), Ok(false));
        assert_eq!(file_sent(&mut table, file), Ok(()));
    }
    let marked = [&frame[..], &["4 <", "1 <", "7 <"]].concat();
    assert_eq!(rules(&table), program(&marked));
    assert_eq!(calls::label(&table, 9), Ok(Label::In { depth: 4, slot: 3 }));
    assert_eq!(complete(&table), Ok(true));
    assert_eq!(listed(&table), []);
}

#[test]
fn the_frame_of_sixty_files_ends_at_atom_180() {
    let table = opened(60);
    let program = rules(&table);
    assert_eq!(held(&program).count(), 61);
    assert_eq!(program[60], Some(page("180 < 177 178 !179")));
    assert_eq!(listed(&table), (1..=60).collect::<Vec<u32>>());
}

#[test]
fn an_opening_for_none_or_more_than_sixty_files_hands_back_the_empty_table() {
    for files in [0, 61, 62, 256, 316, 65_537, u32::MAX] {
        assert_eq!(
            open(files),
            (Err(Refusal::WrongFileCount), RawTable::empty())
        );
    }
    let mut table = table(&["1 <"]);
    let answer = Call::Open { files: 61 }.make(&mut table, &mut Lent::default());
    assert_eq!(answer.map_err(Refusal::number), Err(21));
    assert_eq!(table, RawTable::empty(), "what stood before plays no part");
    assert_none(&table, "the empty table");
}

#[test]
fn skips_stand_until_they_are_withdrawn_and_each_takes_the_lowest_free_slot() {
    let mut table = opened(2);
    assert_eq!(file_skipped(&mut table, 2), Ok(()));
    assert_eq!(
        file_sent(&mut table, 2),
        Ok(()),
        "a skipped file may be sent"
    );
    assert_eq!(file_sent(&mut table, 1), Ok(()));
    assert_eq!(complete(&table), Ok(false));
    assert_eq!(listed(&table), [2]);
    assert_eq!(
        file_skipped(&mut table, 1),
        Ok(()),
        "a sent file may be skipped"
    );
    assert_eq!(listed(&table), [1, 2]);
    assert_eq!(skip_withdrawn(&mut table, 2), Ok(()));
    assert_eq!(listed(&table), [1]);
    assert_eq!(skip_withdrawn(&mut table, 1), Ok(()));
    assert_eq!((complete(&table), listed(&table)), (Ok(true), vec![]));
    assert_eq!(file_skipped(&mut table, 1), Ok(()));
    let expected = ["0 <", "3 < 0 1 !2", "6 < 3 4 !5", "2 <", "4 <", "1 <"];
    assert_eq!(rules(&table), program(&expected), "in the slot freed first");
}

#[test]
fn a_file_is_asked_for_its_number_before_its_mark() {
    let mut table = opened(3);
    assert_eq!(file_sent(&mut table, 1), Ok(()));
    assert_eq!(file_skipped(&mut table, 3), Ok(()));
    let before = table.clone();
    // 1431655766 times 3 starts over past 32 bits, and so do the others: none is file 1 or 2.
    for file in [
        0,
        4,
        5,
        60,
        61,
        257,
        65_537,
        1_431_655_766,
        2_863_311_531,
        u32::MAX,
    ] {
        let answers = [
            file_sent(&mut table, file),
            file_skipped(&mut table, file),
            skip_withdrawn(&mut table, file),
        ];
        assert_eq!(
            answers.map(|a| a.map_err(Refusal::number)),
            [Err(20); 3],
            "{file}"
        );
    }
    assert_eq!(table, before);
}

#[test]
fn a_mark_that_would_not_change_is_refused() {
    let mut table = opened(3);
    assert_eq!(file_sent(&mut table, 1), Ok(()));
    assert_eq!(file_skipped(&mut table, 3), Ok(()));
    let before = table.clone();
    let answers = [
        file_sent(&mut table, 1),
        file_skipped(&mut table, 3),
        skip_withdrawn(&mut table, 1),
        skip_withdrawn(&mut table, 2),
    ];
    assert_eq!(answers.map(|a| a.map_err(Refusal::number)), [Err(22); 4]);
    assert_eq!(table, before);
}

#[test]
fn the_list_of_files_asks_for_the_table_and_then_for_the_buffer() {
    let mut table = opened(4);
    assert_eq!(file_sent(&mut table, 3), Ok(()));
    let mut buffer = [7; 4];
    for length in 0..3 {
        let answer = missing(&table, &mut buffer[..length]);
        assert_eq!(answer, Err(Refusal::BufferTooShort { needed: 3 }));
        assert_eq!(buffer, [7; 4], "nothing is written");
    }
    assert_eq!(missing(&table, &mut buffer[..3]), Ok(3));
    assert_eq!(buffer, [1, 2, 4, 7], "the later entry stays");
}

#[test]
fn a_mark_that_an_addition_put_in_counts_in_any_slot() {
    let mut table = opened(2);
    for text in ["4 <", "5 <", "1 <"] {
        assert!(add(&mut table, text).is_ok());
    }
    assert_eq!(listed(&table), [2]);
    assert_eq!(file_sent(&mut table, 2), Err(Refusal::MarkUnchanged));
    assert_eq!(skip_withdrawn(&mut table, 2), Ok(()));
    assert_eq!(complete(&table), Ok(true));
    for slot in [3, 5, 200, 255] {
        let mut program = program(&["0 <", "3 < 0 1 !2", "6 < 3 4 !5"]);
        (program[slot], program[100]) = (Some(page("5 <")), Some(page("1 <")));
        let mut table = table_of(program);
        assert_eq!(listed(&table), [2], "slot {slot}");
        assert_eq!(file_skipped(&mut table, 2), Err(Refusal::MarkUnchanged));
        assert_eq!(skip_withdrawn(&mut table, 2), Ok(()));
        assert_eq!(rules(&table)[slot], None);
        assert_eq!(rules(&table)[100], Some(page("1 <")));
    }
}

#[test]
fn a_mark_taken_out_by_a_removal_does_not_count() {
    let mut table = opened(1);
    assert_eq!(file_sent(&mut table, 1), Ok(()));
    assert_eq!(complete(&table), Ok(true));
    assert_eq!(calls::remove(&mut table, 2), Ok(()));
    assert_eq!(complete(&table), Ok(false));
    assert_eq!(file_sent(&mut table, 1), Ok(()));
}

#[test]
fn every_rule_of_the_frame_is_needed_in_its_slot() {
    for files in [1, 2, 3, 5, 60] {
        for slot in 0..=files {
            let mut table = opened(files);
            assert_eq!(calls::remove(&mut table, slot), Ok(()));
            if slot < files || files == 1 {
                assert_none(&table, "a rule is gone");
            }
            let mut program = rules(&table);
            program[200] = Some(Page::unmuted(frame_rule(slot)));
            assert_none(&table_of(program), "a rule stands elsewhere");
        }
    }
    let mut table = opened(3);
    assert_eq!(calls::remove(&mut table, 3), Ok(()));
    assert_eq!(
        listed(&table),
        [1, 2],
        "without its last rule it has a file less"
    );
}

#[test]
fn another_rule_in_the_frames_slot_is_no_checklist() {
    for changed in [
        "3 <",
        "3 < 0",
        "3 < 1 !2",
        "3 < 0 !2",
        "3 < 0 1",
        "3 < 0 2 !1",
        "3 < 0 1 2",
        "3 < 0 1 !4",
        "3 < 0 1 !2 !7",
        "3 < 0 1 5 !2",
        "9 < 0 1 !2",
        "1 <",
    ] {
        let table = table(&["0 <", changed, "6 < 3 4 !5"]);
        assert_none(&table, changed);
    }
    assert_none(&table(&["1 <", "3 < 0 1 !2"]), "no atom 0");
    assert_none(&table(&["0 < 0", "3 < 0 1 !2"]), "atom 0 is no fact");
    assert_none(&table(&["3 < 0 1 !2", "0 <"]), "two rules change places");
    assert_none(&table(&["0 <"]), "no file");
}

#[test]
fn a_rule_too_many_is_no_checklist() {
    for stray in [
        "3 <",
        "6 <",
        "9 <",
        "7 <",
        "8 <",
        "180 <",
        "255 <",
        "1 < 0",
        "1 < 1",
        "2 < !1",
        "3 < 0 1",
        "12 < 9 10 !11",
        "9 < 3 7 !8",
    ] {
        let frame = ["0 <", "3 < 0 1 !2", "6 < 3 4 !5"];
        let table = table(&[&frame[..], &["1 <", stray]].concat());
        assert_none(&table, stray);
    }
}

#[test]
fn a_mark_of_one_file_more_is_no_checklist_until_the_list_has_it() {
    let frame = ["0 <", "3 < 0 1 !2", "6 < 3 4 !5"];
    for mark in ["4 <", "5 <"] {
        assert_none(&table(&[&frame[..2], &[mark]].concat()), mark);
        let mut table = table(&[&frame[..], &[mark]].concat());
        assert_eq!(file_sent(&mut table, 1), Ok(()));
    }
}

#[test]
fn a_frame_of_sixty_one_files_is_no_checklist() {
    let program = |last: u32| -> Program {
        let frame = (0..=last).map(|slot| Page::unmuted(frame_rule(slot)));
        let mut rules: Program = frame.map(Some).collect();
        rules.resize(256, None);
        rules
    };
    assert_eq!(complete(&table_of(program(60))), Ok(false));
    assert_none(&table_of(program(61)), "61 files");
    for mark in ["181 <", "182 <"] {
        let mut table = opened(60);
        assert_eq!(add(&mut table, mark), Ok(61));
        assert_none(&table, mark);
    }
}

#[test]
fn a_checklist_with_a_muted_rule_is_none_until_it_is_unmuted() {
    let mut table = opened(2);
    for file in [1, 2] {
        assert_eq!(file_sent(&mut table, file), Ok(()));
    }
    assert_eq!(file_skipped(&mut table, 2), Ok(()));
    let before = table.clone();
    // Slots 0 to 2 are the frame, 3 and 4 say that the files are sent, 5 that the last one is skipped.
    for slot in 0..6 {
        assert_eq!(calls::mute(&mut table, slot, 1), Ok(()));
        assert!(sound(&table));
        assert_none(&table, &format!("slot {slot} is muted"));
        assert_eq!(calls::mute(&mut table, slot, 0), Ok(()));
        assert_eq!(table, before);
        assert_eq!(listed(&table), [2], "slot {slot} is unmuted");
    }
}

#[test]
fn a_muted_rule_is_neither_a_mark_that_stands_nor_one_that_does_not() {
    let mut table = opened(1);
    assert_eq!(file_sent(&mut table, 1), Ok(()));
    assert_eq!(calls::mute(&mut table, 2, 1), Ok(()));
    assert_none(&table, "1 is sent, and that is muted");
    assert_eq!(add(&mut table, "1 <"), Err(5), "it is held");
    assert_eq!(calls::remove(&mut table, 2), Ok(()));
    assert_eq!(listed(&table), [1]);
    assert_eq!(add(&mut table, "9 <"), Ok(2));
    assert_eq!(calls::mute(&mut table, 2, 1), Ok(()));
    assert_none(&table, "a rule too many, though it is muted");
}

#[test]
fn an_unsound_table_is_asked_nothing_else() {
    let mut table = opened(2);
    table.kept[2].depth = 1;
    assert_none(&table, "a depth that the rules do not give");
    let mut table = opened(2);
    table.rules[255].head = 1;
    assert_none(&table, "a free slot that is not clean");
    let mut table = opened(2);
    table.rules[2].entries.swap(0, 1);
    assert_none(&table, "a list that does not ascend");
    let mut table = opened(2);
    assert_eq!(file_sent(&mut table, 1), Ok(()));
    table.rules[4] = table.rules[3];
    assert_none(&table, "a mark that stands twice");
}

#[test]
fn the_rules_of_a_checklist_may_be_added_by_hand() {
    let mut by_hand = RawTable::empty();
    for text in ["0 <", "3 < 1 0 !2", "6 < 4 3 !5", "1 <"] {
        assert!(add(&mut by_hand, text).is_ok());
    }
    let mut table = opened(2);
    assert_eq!(file_sent(&mut table, 1), Ok(()));
    assert_eq!(by_hand, table);
    let mut bytes = [0; 512];
    assert_eq!(calls::save(&table, &mut bytes), Ok(512));
    assert_eq!(calls::load(&bytes), (Ok(()), table), "and saved and loaded");
}
