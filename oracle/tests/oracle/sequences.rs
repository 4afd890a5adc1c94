//! Lists of calls, held against the plain book.

use oracle::book::Book;
use oracle::calls::{self, Lent, Validity};
use oracle::generate::calls::Calls;
use oracle::labels::Labelled;
use oracle::model::admissible_models;
use oracle::questions::Refusal;
use oracle::random::Random;
use oracle::relations::spoiler;
use oracle::rules::occurring;
use oracle::sound::{sound, sound_rules};
use oracle::table::RawTable;
use std::collections::BTreeMap;

/// Each slot holds what the page of its number holds, and labels and spoilers are those
/// defined for the book's rules.
fn assert_table_is_the_books(table: &RawTable, book: &Book) {
    assert!(sound(table), "every call leaves a sound table");
    assert_eq!(sound_rules(table).as_ref(), Some(book.pages()));
    let defined = Labelled::of(book.pages().clone());
    for atom in 0..256 {
        assert_eq!(calls::label(table, atom), Ok(defined.label(atom)));
    }
    for (slot, page) in (0..).zip(book.pages()) {
        let answer = match page {
            None => Err(Refusal::SlotFree),
            Some(page) if page.muted => Ok(Validity::Muted),
            Some(page) => {
                Ok(spoiler(&defined, &page.rule).map_or(Validity::Valid, Validity::Spoiled))
            }
        };
        assert_eq!(calls::spoiler(table, slot), answer);
    }
    if occurring(book.pages()).ascending().count() <= 10 {
        let m = (0..256).filter(|&atom| defined.is_in(atom)).collect();
        assert_eq!(admissible_models(book.pages()), [m]);
    }
}

/// Makes the calls on both, counts the answers by refusal number (0 for accepted).
fn follow(
    random: &mut Random,
    table: &mut RawTable,
    book: &mut Book,
    calls: usize,
    size: (usize, usize),
) -> BTreeMap<u32, usize> {
    let mut answers = BTreeMap::new();
    let mut lent = Lent {
        numbers: vec![0; 256],
        bytes: vec![0; 12 * 512],
    };
    let mut drawn = Calls::on(table, size.0, size.1);
    for _ in 0..calls {
        let call = drawn.call(random);
        let answer = call.make(table, &mut lent).map_err(Refusal::number);
        if let Some(expected) = book.make(&call) {
            assert_eq!(answer, expected, "{call:?} in {book:?}");
        }
        *answers.entry(answer.err().unwrap_or(0)).or_default() += 1;
    }
    answers
}

#[test]
fn calls_answer_as_the_book_does_and_leave_what_it_holds() {
    let mut random = Random::seeded(51);
    let mut answers: BTreeMap<u32, usize> = BTreeMap::new();
    for round in 0..60 {
        let mut table = RawTable::empty();
        let mut book = Book::empty();
        let atoms = 2 + round % 9;
        for (number, count) in follow(&mut random, &mut table, &mut book, 100, (atoms, 12)) {
            *answers.entry(number).or_default() += count;
        }
        assert_table_is_the_books(&table, &book);
    }
    for number in [0, 1, 2, 3, 4, 5, 7, 8, 9, 10, 12] {
        assert!(
            answers.get(&number).is_some_and(|&count| count > 10),
            "{number} occurs: {answers:?}"
        );
    }
    for number in [16, 17, 18, 19] {
        assert!(answers.contains_key(&number), "{number}: {answers:?}");
    }
}

#[test]
fn calls_answer_as_the_book_does_when_slots_run_out() {
    let mut random = Random::seeded(52);
    let mut run_out = 0;
    for _ in 0..8 {
        let mut table = RawTable::empty();
        let mut book = Book::empty();
        for atom in 0..255 {
            assert_eq!(calls::add(&mut table, atom, &[], &[]), Ok(atom));
            assert_eq!(book.add(atom, &[], &[]), Ok(atom));
        }
        let answers = follow(&mut random, &mut table, &mut book, 200, (40, 256));
        run_out += usize::from(answers.contains_key(&6));
        assert_table_is_the_books(&table, &book);
    }
    assert!(run_out > 3, "slots run out before a load: {run_out}");
}

#[test]
fn freed_slots_are_taken_lowest_first_and_the_others_keep_their_rules() {
    let mut table = RawTable::empty();
    for atom in 0..6 {
        assert_eq!(calls::add(&mut table, atom, &[], &[]), Ok(atom));
    }
    for slot in [4, 1, 3] {
        assert_eq!(calls::remove(&mut table, slot), Ok(()));
    }
    assert_eq!(calls::label(&table, 4), Ok(oracle::labels::Label::Absent));
    let slots: Vec<_> = (10..14)
        .map(|atom| calls::add(&mut table, atom, &[], &[]).unwrap())
        .collect();
    assert_eq!(slots, [1, 3, 4, 6]);
    let heads: Vec<u32> = sound_rules(&table)
        .unwrap()
        .iter()
        .flatten()
        .map(|page| page.rule.head)
        .collect();
    assert_eq!(heads, [0, 10, 2, 11, 12, 5, 13]);
}
