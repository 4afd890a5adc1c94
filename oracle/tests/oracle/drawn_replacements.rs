//! The generators draw replacements of every flavour, and each comes to what it was drawn for.

use oracle::book::Book;
use oracle::calls::Call;
use oracle::generate::again::pages_of;
use oracle::generate::checklists::Checklists;
use oracle::generate::lists::{follow, follow_lists};
use oracle::generate::replacement_kinds::{Kind, Seen, REFUSALS};
use oracle::generate::replacements::{replacement, Flavour, FLAVOURS};
use oracle::generate::sheets::{self, sheet};
use oracle::generate::sound_table;
use oracle::generate::words::{list, Ending};
use oracle::random::Random;
use oracle::replay::calls;
use oracle::sound::sound_rules;

/// What a flavour comes to; `None` where it may come to several ends.
fn end(flavour: Flavour) -> Option<Kind> {
    match flavour {
        Flavour::Itself => Some(Kind::Itself),
        Flavour::Reordered => Some(Kind::Reordered),
        Flavour::HeldElsewhere => Some(Kind::Refused(5)),
        Flavour::LoopWithOld => Some(Kind::LoopWithOld),
        Flavour::LoopAnyway => Some(Kind::Refused(7)),
        Flavour::Edited => None,
        Flavour::Spoiled(number) => Some(Kind::Refused(number)),
        Flavour::FreeSlot => Some(Kind::Refused(9)),
        Flavour::NoSlot => Some(Kind::Refused(8)),
    }
}

/// How many of a hundred sound tables had room for the flavour; each came to its end.
fn drawn(random: &mut Random, flavour: Flavour) -> usize {
    let mut count = 0;
    for _ in 0..100 {
        let pages = sound_rules(&sound_table(random)).expect("sound rules");
        let Some((slot, named)) = replacement(random, &pages, flavour) else {
            continue;
        };
        let call = named.replacing(slot);
        let answer = Book::holding(pages.clone()).make(&call).expect("a change");
        let kind = Kind::of(&pages, &call, answer.err().unwrap_or(0));
        assert!(
            kind == end(flavour) || end(flavour).is_none(),
            "{flavour:?}: {kind:?} {call:?}"
        );
        count += 1;
    }
    count
}

#[test]
fn each_flavour_is_drawn_often_and_comes_to_its_end() {
    let mut random = Random::seeded(401);
    for flavour in FLAVOURS {
        let count = drawn(&mut random, flavour);
        assert!(count > 40, "{flavour:?}: {count}");
    }
}

#[test]
fn lists_of_calls_meet_every_kind() {
    let mut random = Random::seeded(402);
    let mut seen = Seen::default();
    follow_lists(&mut random, 300, 40, |table, call, refused| {
        seen.note(&pages_of(table), call, refused);
    });
    let refusals = [&REFUSALS[..], &[15]].concat();
    assert!(seen.is_enough(&refusals, 20), "{seen}");
    assert_eq!(seen.times(Kind::Refused(6)), 0, "{seen}");
}

#[test]
fn a_kind_that_never_came_up_is_not_enough() {
    let mut random = Random::seeded(406);
    let mut seen = Seen::default();
    assert!(!seen.is_enough(&[], 1));
    for _ in 0..150 {
        let table = sound_table(&mut random);
        follow(&mut random, table, 40, |table, call, refused| {
            seen.note(&pages_of(table), call, refused);
        });
    }
    assert!(seen.is_enough(&REFUSALS, 1), "{seen}");
    assert!(!seen.is_enough(&[6], 1) && !seen.is_enough(&[15], 1));
    assert!(!seen.is_enough(&REFUSALS, 100_000));
}

#[test]
fn lists_of_numbers_meet_every_kind() {
    let mut random = Random::seeded(403);
    let mut seen = Seen::default();
    for _ in 0..600 {
        let drawn = list(&mut random, Ending::Whole);
        let mut book = Book::empty();
        for call in calls(&drawn.words, &drawn.files) {
            seen.follow(&mut book, &call);
        }
    }
    assert!(seen.is_enough(&REFUSALS, 20), "{seen}");
}

#[test]
fn sheets_meet_every_kind() {
    let mut random = Random::seeded(404);
    let mut seen = Seen::default();
    for (_, &flavour) in (0..240).zip(sheets::FLAVOURS.iter().cycle()) {
        seen.note_sheet(&sheet(&mut random, flavour));
    }
    let refusals = [&REFUSALS[..], &[13, 14]].concat();
    assert!(seen.is_enough(&refusals, 20), "{seen}");
}

#[test]
fn rules_of_a_checklist_are_replaced() {
    let mut random = Random::seeded(405);
    let mut seen = Seen::default();
    for _ in 0..60 {
        let mut drawn = Checklists::start();
        let mut book = Book::empty();
        for _ in 0..100 {
            let call = drawn.change(&mut random);
            seen.follow(&mut book, &call);
        }
    }
    for kind in [Kind::Itself, Kind::Reordered, Kind::Other, Kind::Refused(5)] {
        assert!(seen.times(kind) > 20, "{kind}: {seen}");
    }
}

#[test]
fn a_kind_is_told_from_the_pages_and_the_answer() {
    let mut book = Book::empty();
    for (head, entry) in [(1, 2), (2, 3)] {
        assert!(book.add(head, &[entry], &[4, 5]).is_ok());
    }
    let told = |slot, head, positives: &[u32], negatives: &[u32]| {
        let (positives, negatives) = (positives.to_vec(), negatives.to_vec());
        let call = Call::Replace {
            slot,
            head,
            positives,
            negatives,
        };
        let answer = book.clone().make(&call).expect("a change");
        Kind::of(book.pages(), &call, answer.err().unwrap_or(0))
    };
    assert_eq!(told(0, 1, &[2], &[4, 5]), Some(Kind::Itself));
    assert_eq!(told(0, 1, &[2], &[5, 4]), Some(Kind::Reordered));
    assert_eq!(told(1, 1, &[2], &[5, 4]), Some(Kind::Refused(5)));
    assert_eq!(told(1, 2, &[], &[1]), Some(Kind::Refused(7)));
    assert_eq!(told(1, 3, &[], &[1]), Some(Kind::LoopWithOld));
    assert_eq!(told(0, 9, &[], &[]), Some(Kind::Other));
    assert_eq!(told(2, 9, &[], &[]), Some(Kind::Refused(9)));
    assert_eq!(Kind::of(book.pages(), &Call::Save, 0), None);
}
