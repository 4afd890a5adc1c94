//! Lists of calls written as numbers.

use oracle::book::Book;
use oracle::file::write;
use oracle::generate::words::{list, ENDINGS};
use oracle::random::Random;
use oracle::replay::replay;
use oracle::rules::{Page, Rule};

fn answers(words: &[u32]) -> Vec<u32> {
    replay(words, &[], 100).0
}

#[test]
fn an_addition_answers_its_slot_a_removal_that_it_was_accepted() {
    let list = [1, 5, 1, 1, 6, 7, 1, 6, 0, 0, 0, 0, 1, 8, 0, 0];
    let (answers, book) = replay(&list, &[], 100);
    assert_eq!(answers, [0, 1, 65_536, 0]);
    let mut other = Book::empty();
    assert_eq!(other.add(8, &[], &[]), Ok(0));
    assert_eq!(other.add(6, &[], &[]), Ok(1));
    assert_eq!(book, other);
}

#[test]
fn a_replacement_answers_that_it_was_accepted_and_takes_the_slot() {
    let added = [1, 5, 0, 0, 1, 6, 0, 0, 0, 0];
    let replaced = [7, 1, 9, 2, 1, 4, 3, 2, 7, 1, 9, 2, 1, 3, 4, 2];
    let (answers, book) = replay(&[&added[..], &replaced].concat(), &[], 100);
    assert_eq!(answers, [0, 1, 65_536, 65_536, 65_536]);
    let mut other = Book::empty();
    assert_eq!(other.add(5, &[], &[]), Ok(0));
    assert_eq!(other.add(9, &[3, 4], &[2]), Ok(1));
    assert_eq!(other.remove(0), Ok(()));
    assert_eq!(book, other);
}

#[test]
fn a_refused_replacement_answers_its_number_above_accepted_and_leaves_the_old_rule() {
    let added = [1, 5, 0, 0, 1, 6, 1, 0, 5];
    for (call, number) in [
        (&[7, 256, 256, 0, 0][..], 8),
        (&[7, 2, 256, 0, 0], 9),
        (&[7, 0, 256, 0, 1, 256], 1),
        (&[7, 0, 5, 8, 1, 1, 1, 1, 1, 1, 1, 1, 1, 256], 2),
        (&[7, 0, 5, 2, 1, 1, 1, 256], 3),
        (&[7, 0, 5, 0, 2, 1, 1], 4),
        (&[7, 0, 6, 1, 0, 5], 5),
        (&[7, 0, 5, 0, 1, 6], 7),
    ] {
        let (answers, book) = replay(&[&added[..], call].concat(), &[], 100);
        assert_eq!(answers, [0, 1, 65_536 + number], "{call:?}");
        let mut other = Book::empty();
        assert_eq!(other.add(5, &[], &[]), Ok(0));
        assert_eq!(other.add(6, &[5], &[]), Ok(1));
        assert_eq!(book, other, "{call:?}");
    }
}

#[test]
fn a_muting_answers_that_it_was_accepted_and_any_mark_but_0_mutes() {
    let added = [1, 5, 0, 0, 1, 6, 1, 0, 5];
    for mark in [1, 2, 255, 256, 65_536, u32::MAX] {
        let list = [&added[..], &[8, 1, mark, 8, 1, mark]].concat();
        let (answers, book) = replay(&list, &[], 100);
        assert_eq!(answers, [0, 1, 65_536, 65_536], "{mark}");
        let mut other = Book::empty();
        assert_eq!(other.add(5, &[], &[]), Ok(0));
        assert_eq!(other.add(6, &[5], &[]), Ok(1));
        assert_ne!(book, other, "{mark}");
        assert_eq!(other.mute(1, 1), Ok(()));
        assert_eq!(book, other, "{mark}");
        let list = [&list[..], &[8, 1, 0]].concat();
        let (answers, book) = replay(&list, &[], 100);
        assert_eq!(answers.last(), Some(&65_536), "{mark}");
        assert_eq!(other.mute(1, 0), Ok(()));
        assert_eq!(book, other, "{mark}");
    }
}

#[test]
fn a_refused_muting_answers_its_number_above_accepted() {
    assert_eq!(answers(&[8, 3, 1]), [65_536 + 9]);
    assert_eq!(answers(&[8, 3, 0]), [65_536 + 9]);
    assert_eq!(answers(&[8, 256, 0]), [65_536 + 8]);
    assert_eq!(answers(&[8, u32::MAX, u32::MAX]), [65_536 + 8]);
}

#[test]
fn a_refusal_answers_its_number_above_accepted() {
    assert_eq!(answers(&[0, 3]), [65_536 + 9]);
    assert_eq!(answers(&[0, 256]), [65_536 + 8]);
    assert_eq!(answers(&[1, 256, 0, 0]), [65_536 + 1]);
    assert_eq!(answers(&[1, 2, 0, 1, 2, 1, 2, 0, 0]), [65_536 + 7, 0]);
}

#[test]
fn a_checklist_is_opened_and_its_files_are_marked() {
    let list = [3, 2, 4, 1, 5, 2, 4, 2, 6, 2, 6, 2, 4, 1, 4, 3, 4, 0];
    let (answers, book) = replay(&list, &[], 100);
    let refused = [22, 22, 20, 20].map(|number| 65_536 + number);
    assert_eq!(answers, [&[65_536; 5][..], &refused].concat());
    let mut other = Book::empty();
    assert_eq!(other.open(2), Ok(()));
    assert_eq!(other.add(1, &[], &[]), Ok(3));
    assert_eq!(other.add(5, &[], &[]), Ok(4));
    assert_eq!(other.add(4, &[], &[]), Ok(5));
    assert_eq!(other.remove(4), Ok(()));
    assert_eq!(book, other);
}

#[test]
fn a_refused_opening_frees_every_page_and_pages_that_are_no_checklist_meet_15() {
    for files in [0, 61, u32::MAX] {
        let list = [1, 5, 0, 0, 3, files, 4, 1, 5, 1, 6, 1];
        let (answers, book) = replay(&list, &[], 100);
        let refused = [21, 15, 15, 15].map(|number| 65_536 + number);
        assert_eq!(answers, [&[0][..], &refused].concat());
        assert_eq!(book, Book::empty());
    }
}

#[test]
fn another_number_or_a_call_cut_short_ends_the_list() {
    for end in [
        &[][..],
        &[9, 0, 0],
        &[8],
        &[8, 0],
        &[7],
        &[7, 0],
        &[7, 0, 2],
        &[7, 0, 2, 0],
        &[7, 0, 2, 1, 0],
        &[7, 0, 2, 0, 1],
        &[7, 0, 2, 1, 1, 3],
        &[3],
        &[4],
        &[5],
        &[6],
        &[u32::MAX],
        &[0],
        &[1],
        &[1, 2, 0],
        &[1, 2, 1, 0],
        &[1, 2, 0, 1],
    ] {
        let list = [&[1, 9, 0, 0], end].concat();
        assert_eq!(answers(&list), [0], "{end:?}");
    }
    assert_eq!(answers(&[1, 2, u32::MAX, u32::MAX, 0, 0]), []);
    assert_eq!(answers(&[1, 9, 0, 0, 9, 0, 1, 8, 0, 0]), [0]);
    assert_eq!(answers(&[1, 9, 0, 0, 7, 0, 2, u32::MAX, u32::MAX, 0]), [0]);
}

#[test]
fn a_call_for_whose_answer_there_is_no_room_is_not_made() {
    let list = [1, 9, 0, 0, 1, 8, 0, 0];
    assert_eq!(replay(&list, &[], 0), (vec![], Book::empty()));
    let (answers, book) = replay(&list, &[], 1);
    assert_eq!(answers, [0]);
    assert_eq!(book.pages().iter().flatten().count(), 1);
}

#[test]
fn some_list_of_every_ending_has_calls() {
    for ending in ENDINGS {
        let mut random = Random::seeded(7);
        let counts: Vec<usize> = (0..200)
            .map(|_| {
                let drawn = list(&mut random, ending);
                replay(&drawn.words, &drawn.files, 1000).0.len()
            })
            .collect();
        assert!(counts.iter().any(|&count| count > 0), "{ending:?}");
    }
}

/// Two files: of one fact, in slot 2, and one of a wrong length.
fn two_files() -> Vec<u8> {
    let mut program = vec![None; 256];
    program[2] = Some(Page::unmuted(Rule::of(9, &[], &[])));
    let mut files = write(&program);
    files.extend([7; 3]);
    files
}

#[test]
fn a_load_answers_that_it_was_accepted_and_its_rules_stand_alone() {
    let list = [1, 5, 0, 0, 2, 0, 512, 1, 8, 0, 0, 1, 9, 0, 0, 0, 2];
    let (answers, book) = replay(&list, &two_files(), 100);
    assert_eq!(answers, [0, 65_536, 0, 65_536 + 5, 65_536]);
    let heads: Vec<u32> = book
        .pages()
        .iter()
        .flatten()
        .map(|page| page.rule.head)
        .collect();
    assert_eq!(heads, [8], "5 went with the load, 9 was removed");
}

#[test]
fn a_refused_load_answers_its_number_above_accepted_and_frees_every_page() {
    for (from, to, number) in [(512, 515, 16), (0, 0, 16), (515, 515, 16), (1, 513, 17)] {
        let list = [1, 5, 0, 0, 2, from, to];
        let (answers, book) = replay(&list, &two_files(), 100);
        assert_eq!(answers, [0, 65_536 + number], "{from} to {to}");
        assert_eq!(book, Book::empty());
    }
}

#[test]
fn a_load_from_beyond_the_bytes_or_backwards_ends_the_list() {
    for end in [
        &[2][..],
        &[2, 0],
        &[2, 0, 516, 0, 0],
        &[2, 516, 516, 0, 0],
        &[2, 512, 511, 0, 0],
        &[2, u32::MAX, u32::MAX, 0, 0],
        &[2, u32::MAX, 0, 0, 0],
    ] {
        let list = [&[1, 5, 0, 0], end].concat();
        let (answers, book) = replay(&list, &two_files(), 100);
        assert_eq!(answers, [0], "{end:?}");
        assert_eq!(book.pages().iter().flatten().count(), 1, "{end:?}");
    }
}

#[test]
fn a_load_for_whose_answer_there_is_no_room_is_not_made() {
    let (answers, book) = replay(&[1, 5, 0, 0, 2, 0, 0], &[], 1);
    assert_eq!(answers, [0]);
    assert_eq!(book.pages().iter().flatten().count(), 1);
}
