//! The generators draw mutings of every flavour, and each comes to what it was drawn for; and other calls meet muted
//! rules.

use oracle::book::Book;
use oracle::calls::{Call, Lent};
use oracle::checklist;
use oracle::file::write;
use oracle::generate::again::pages_of;
use oracle::generate::checklists::Checklists;
use oracle::generate::lists::{follow, follow_lists};
use oracle::generate::marks::{marked, Marks, MARKS};
use oracle::generate::muting_kinds::{How, Kind, Met, Seen, BY_CHANGES, BY_RULES, HOWS, REFUSALS};
use oracle::generate::mutings::{muting, Flavour, FLAVOURS};
use oracle::generate::programs::{program, FLAVOURS as PROGRAMS};
use oracle::generate::words::{list, Ending};
use oracle::generate::{mixed_table, sound_table};
use oracle::questions::Refusal;
use oracle::random::Random;
use oracle::replay::calls;
use oracle::rules::{held, muted};
use oracle::sound::{sound, sound_rules};
use oracle::table::{RawTable, MUTED};

/// What a flavour comes to, among other things.
fn ends(flavour: Flavour) -> Vec<Kind> {
    match flavour {
        Flavour::Supporting | Flavour::Relieved => vec![Kind::Muting(How::Supporting)],
        Flavour::Negated => vec![Kind::Muting(How::Supporting)],
        Flavour::Valid => vec![Kind::Muting(How::Valid)],
        Flavour::SpoiledOfIn => vec![Kind::Muting(How::SpoiledOfIn)],
        Flavour::OfOut => vec![Kind::Muting(How::SpoiledOfOut)],
        Flavour::LastOfHead => vec![Kind::Muting(How::WholeHead)],
        Flavour::MutedAgain => vec![Kind::Muting(How::Again)],
        Flavour::UnmutedAgain => vec![Kind::Unmuting(How::Again)],
        Flavour::UnmutedLetsIn | Flavour::UnmutedNegated => vec![Kind::Unmuting(How::LetsIn)],
        Flavour::UnmutedOfIn => [How::MovesSupport, How::Valid].map(Kind::Unmuting).to_vec(),
        Flavour::UnmutedSpoiledOfIn => vec![Kind::Unmuting(How::SpoiledOfIn)],
        Flavour::UnmutedSpoiledOfOut => vec![Kind::Unmuting(How::SpoiledOfOut)],
        Flavour::FreeSlot => vec![Kind::Refused(9)],
        Flavour::NoSlot => vec![Kind::Refused(8)],
    }
}

/// How many of four hundred sound tables had room for the flavour; each came to one of its ends.
fn drawn(random: &mut Random, flavour: Flavour) -> usize {
    let mut count = 0;
    for _ in 0..400 {
        let pages = sound_rules(&sound_table(random)).expect("sound rules");
        let Some(call) = muting(random, &pages, flavour) else {
            continue;
        };
        let answer = Book::holding(pages.clone()).make(&call).expect("a change");
        let kinds = Kind::of(&pages, &call, answer.err().unwrap_or(0));
        let ends = ends(flavour);
        assert!(
            kinds.iter().any(|kind| ends.contains(kind)),
            "{flavour:?}: {kinds:?} {call:?}"
        );
        count += 1;
    }
    count
}

#[test]
fn each_flavour_is_drawn_often_and_comes_to_its_end() {
    let mut random = Random::seeded(511);
    for flavour in FLAVOURS {
        let count = drawn(&mut random, flavour);
        assert!(count > 20, "{flavour:?}: {count}");
    }
}

#[test]
fn marks_are_what_they_are_called() {
    let mut random = Random::seeded(512);
    for round in 0..60 {
        let plain = program(&mut random, PROGRAMS[round % PROGRAMS.len()]);
        let rules = held(&plain).count();
        let count = |random: &mut Random, marks| {
            let program = marked(random, plain.clone(), marks);
            assert!(held(&program).eq(held(&plain)), "{marks:?}");
            muted(&program).count()
        };
        assert_eq!(count(&mut random, Marks::None), 0);
        assert_eq!(count(&mut random, Marks::One), rules.min(1));
        assert_eq!(count(&mut random, Marks::All), rules);
        for marks in MARKS {
            assert!(count(&mut random, marks) <= rules, "{marks:?}");
        }
    }
}

#[test]
fn tables_have_muted_rules_and_damaged_marks() {
    let mut random = Random::seeded(513);
    let (mut good, mut bad, mut no_state) = (0, 0, 0);
    for _ in 0..1_000 {
        let table = mixed_table(&mut random);
        let has = |so: fn(u16) -> bool| table.rules.iter().any(|raw| so(raw.state));
        let has_muted = has(|state| state == MUTED);
        good += usize::from(has_muted && sound(&table));
        bad += usize::from(has_muted && !sound(&table));
        no_state += usize::from(has(|state| state > MUTED));
    }
    let counts = (good, bad, no_state);
    assert!(good > 200 && bad > 200 && no_state > 30, "{counts:?}");
}

#[test]
fn lists_of_calls_meet_every_kind() {
    let mut random = Random::seeded(514);
    let mut seen = Seen::default();
    follow_lists(&mut random, 600, 40, |table, call, refused| {
        seen.note(&pages_of(table), call, refused);
    });
    let refusals = [&REFUSALS[..], &[15]].concat();
    assert!(seen.is_enough(&refusals, &BY_RULES, 10), "{seen}");
    for number in [5, 6, 7] {
        assert_eq!(seen.times(Kind::Refused(number)), 0, "{seen}");
    }
}

#[test]
fn a_kind_that_never_came_up_is_not_enough() {
    let mut random = Random::seeded(515);
    let mut seen = Seen::default();
    assert!(!seen.is_enough(&[], &[], 1));
    for _ in 0..150 {
        let table = sound_table(&mut random);
        follow(&mut random, table, 40, |table, call, refused| {
            seen.note(&pages_of(table), call, refused);
        });
    }
    assert!(seen.is_enough(&REFUSALS, &BY_RULES, 1), "{seen}");
    assert!(!seen.is_enough(&[15], &[], 1) && !seen.is_enough(&[], &[Met::Checklist], 1));
    assert!(!seen.is_enough(&[], &[], 100_000));
}

#[test]
fn lists_of_numbers_meet_every_kind() {
    let mut random = Random::seeded(516);
    let mut seen = Seen::default();
    for _ in 0..1_000 {
        let drawn = list(&mut random, Ending::Whole);
        let mut book = Book::empty();
        for call in calls(&drawn.words, &drawn.files) {
            seen.follow(&mut book, &call);
        }
    }
    assert!(seen.is_enough(&REFUSALS, &BY_CHANGES, 10), "{seen}");
}

#[test]
fn rules_of_a_checklist_are_muted_and_unmuted() {
    let mut random = Random::seeded(517);
    let mut seen = Seen::default();
    let mut mended = 0;
    for _ in 0..100 {
        let mut drawn = Checklists::start();
        let mut table = RawTable::empty();
        for _ in 0..100 {
            let call = drawn.call(&mut random);
            let before = pages_of(&table);
            let was_none = checklist::complete(&table).is_err();
            let answer = call.make(&mut table, &mut Lent::default());
            seen.note(&before, &call, answer.err().map_or(0, Refusal::number));
            let unmutes = matches!(call, Call::Mute { mark: 0, .. });
            mended += usize::from(unmutes && was_none && checklist::complete(&table).is_ok());
        }
    }
    assert!(mended > 20, "{mended}: {seen}");
    for kind in [
        Kind::Muting(How::Supporting),
        Kind::Muting(How::SpoiledOfOut),
        Kind::Unmuting(How::Supporting),
        Kind::Unmuting(How::SpoiledOfOut),
        Kind::Met(Met::Checklist),
    ] {
        assert!(seen.times(kind) > 20, "{kind:?}: {seen}");
    }
}

/// What muting or unmuting the slot of a table of these rules comes to.
fn told(texts: &[&str], slot: u32, mark: u32) -> Vec<Kind> {
    let pages = crate::notation::program(texts);
    let call = Call::Mute { slot, mark };
    let answer = Book::holding(pages.clone()).make(&call).expect("a change");
    Kind::of(&pages, &call, answer.err().unwrap_or(0))
}

#[test]
fn a_muting_is_told_from_the_pages_and_the_answer() {
    let rules = [
        "1 <", "2 < 1", "2 < 1 3", "4 < 3", "5 < !1", "~2 <", "~6 < 3",
    ];
    let muting = |slot, hows: &[How]| {
        let expected: Vec<Kind> = hows.iter().copied().map(Kind::Muting).collect();
        assert_eq!(told(&rules, slot, 9), expected, "{slot}");
    };
    muting(
        0,
        &[How::Supporting, How::LetsIn, How::LetsOut, How::WholeHead],
    );
    muting(1, &[How::Supporting, How::LetsOut]);
    muting(2, &[How::SpoiledOfIn]);
    muting(3, &[How::SpoiledOfOut, How::WholeHead]);
    muting(5, &[How::Again]);
    let unmuting = |slot, hows: &[How]| {
        let expected: Vec<Kind> = hows.iter().copied().map(Kind::Unmuting).collect();
        assert_eq!(told(&rules, slot, 0), expected, "{slot}");
    };
    unmuting(0, &[How::Again]);
    unmuting(5, &[How::Supporting, How::MovesSupport]);
    unmuting(6, &[How::SpoiledOfOut, How::WholeHead]);
    assert_eq!(told(&rules, 7, 1), [Kind::Refused(9)]);
    assert_eq!(told(&rules, 256, 1), [Kind::Refused(8)]);
    let valid = told(&["1 <", "1 < !2"], 1, 1);
    assert_eq!(valid, [Kind::Muting(How::Valid)]);
    assert_eq!(HOWS.len(), 9);
}

/// What another call on a table of these rules meets.
fn met(texts: &[&str], call: Call) -> Vec<Kind> {
    let mut table = crate::notation::table(texts);
    let pages = pages_of(&table);
    let mut lent = Lent {
        numbers: vec![0; 256],
        bytes: vec![0; 512],
    };
    let answer = call.make(&mut table, &mut lent);
    Kind::of(&pages, &call, answer.err().map_or(0, Refusal::number))
}

fn addition(head: u32, positives: &[u32], negatives: &[u32]) -> Call {
    let (positives, negatives) = (positives.to_vec(), negatives.to_vec());
    Call::Add {
        head,
        positives,
        negatives,
    }
}

/// The rule in a slot is replaced by a fact that no table here has.
fn replacement(slot: u32) -> Call {
    Call::Replace {
        slot,
        head: 9,
        positives: vec![],
        negatives: vec![],
    }
}

/// The file of these rules is loaded.
fn loading(texts: &[&str]) -> Call {
    let pages = pages_of(&crate::notation::table(texts));
    Call::Load {
        bytes: write(&pages),
    }
}

#[test]
fn what_other_calls_meet_is_told_from_the_pages_and_the_answer() {
    let rules = ["~1 < 2", "3 < 1", "~4 <", "4 < !5"];
    let meets = |call: Call, expected: Option<Met>| {
        let expected: Vec<Kind> = expected.map(Kind::Met).into_iter().collect();
        assert_eq!(met(&rules, call.clone()), expected, "{call:?}");
    };
    meets(addition(1, &[2], &[]), Some(Met::Same));
    meets(addition(3, &[1], &[]), None);
    meets(addition(2, &[], &[1]), Some(Met::Loop));
    meets(addition(1, &[], &[3]), None);
    meets(addition(9, &[], &[]), None);
    meets(Call::Remove { slot: 0 }, Some(Met::Removed));
    meets(Call::Remove { slot: 1 }, None);
    meets(Call::Spoiler { slot: 0 }, Some(Met::ToldSpoiled));
    meets(Call::Spoiler { slot: 2 }, Some(Met::ToldValid));
    meets(Call::Spoiler { slot: 3 }, None);
    meets(Call::Label { atom: 2 }, Some(Met::Label));
    meets(Call::Label { atom: 1 }, None);
    meets(Call::Justifications { atom: 4 }, Some(Met::Justification));
    meets(Call::Justifications { atom: 3 }, None);
    meets(Call::Consequences { atom: 2 }, Some(Met::Consequence));
    meets(Call::Consequences { atom: 1 }, None);
    meets(Call::Repercussions { atom: 2 }, Some(Met::Repercussion));
    meets(Call::Repercussions { atom: 1 }, None);
    meets(Call::Reason { atom: 4 }, Some(Met::Reason));
    meets(Call::Reason { atom: 3 }, None);
    meets(replacement(0), Some(Met::Replaced));
    meets(replacement(1), None);
    meets(loading(&["1 <", "~2 < 1"]), Some(Met::Loaded));
    meets(loading(&["1 <"]), None);
    meets(Call::Save, Some(Met::Saved));
    meets(Call::Missing, None);
    let muted_frame = met(&["0 <", "~3 < 0 1 !2"], Call::Complete);
    assert_eq!(muted_frame, [Kind::Met(Met::Checklist)]);
}
