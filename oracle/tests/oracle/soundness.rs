//! Question 15: which raw tables are sound (specification 3.4).

use crate::notation::table;
use oracle::generate::damage::{damaged, Field, FIELDS};
use oracle::generate::faults::{faulty, Fault, FAULTS};
use oracle::generate::kept_faults::{kept_wrong, wrongs, Wrong, WRONGS};
use oracle::generate::marks::any_marked;
use oracle::generate::programs::{program, Flavour, FLAVOURS};
use oracle::generate::{sound_table, table_of};
use oracle::labels::Labelled;
use oracle::random::Random;
use oracle::sound::sound;
use oracle::table::{Kept, RawRule, RawTable, FREE, HELD, MUTED};

#[test]
fn the_empty_table_is_sound_and_all_zero() {
    let empty = RawTable::empty();
    assert!(sound(&empty));
    assert_eq!(empty.to_bytes(), vec![0; 7168]);
    assert_eq!(RawTable::from_bytes(&[0; 7168]), Some(empty));
    assert_eq!(RawTable::from_bytes(&[0; 7167]), None);
    assert_eq!(RawTable::from_bytes(&[0; 7169]), None);
}

#[test]
fn tables_survive_encoding_in_the_order_of_the_fields() {
    let table = table(&["1 <", "201 < 1 !2", "3 < 1 201 !2 !201"]);
    let numbers = table.to_numbers();
    assert_eq!(
        numbers[14..28],
        [1, 201, 1, 1, 1, 2, 0, 0, 0, 0, 0, 0, 2, 0],
        "it supports its head, at depth 2"
    );
    assert_eq!(
        numbers[28..42],
        [1, 3, 2, 2, 1, 201, 2, 201, 0, 0, 0, 0, 0, 4],
        "the fourth of its entries spoils it"
    );
    let bytes = table.to_bytes();
    assert_eq!(bytes[28..34], [1, 0, 201, 0, 1, 0]);
    assert_eq!(RawTable::from_numbers(&numbers), Some(table));
    let mut random = Random::seeded(61);
    for _ in 0..50 {
        let bytes: Vec<u8> = (0..RawTable::BYTES).map(|_| random.word() as u8).collect();
        assert_eq!(RawTable::from_bytes(&bytes).unwrap().to_bytes(), bytes);
    }
}

/// What is changed, in words, and the change.
type Change = (&'static str, fn(&mut RawTable));

const CHANGES: [Change; 28] = [
    ("a rule with no such state", |table| {
        table.rules[0].state = 3
    }),
    ("a muted rule with no such state", |table| {
        table.rules[3].state = 3
    }),
    ("a rule's state that wraps to muted", |table| {
        table.rules[3].state = 258
    }),
    ("a supporting rule that is muted, its depth kept", |table| {
        table.rules[0].state = MUTED
    }),
    ("a muted rule that is unmuted and would support", |table| {
        table.rules[3].state = HELD
    }),
    ("a free slot that holds a fact and keeps nothing", |table| {
        table.rules[9].state = HELD
    }),
    ("a rule's state that wraps to held", |table| {
        table.rules[0].state = 257
    }),
    ("a count that wraps to one", |table| {
        table.rules[1].positives = 257
    }),
    ("a free slot with a head", |table| table.rules[9].head = 1),
    ("a free slot with a count", |table| {
        table.rules[9].positives = 1
    }),
    ("a free slot with an entry", |table| {
        table.rules[255].entries[7] = 1
    }),
    ("a freed slot with its rule left", |table| {
        table.rules[0].state = FREE
    }),
    ("an entry past the list's end", |table| {
        table.rules[1].entries[2] = 1
    }),
    ("a head past the limit", |table| table.rules[0].head = 256),
    ("an entry past the limit", |table| {
        table.rules[1].entries[0] = 257
    }),
    ("counts past eight", |table| table.rules[0].negatives = 9),
    ("counts that wrap to eight", |table| {
        (table.rules[0].positives, table.rules[0].negatives) = (255, 9)
    }),
    ("counts that wrap to eight as numbers", |table| {
        (table.rules[0].positives, table.rules[0].negatives) = (65_535, 9)
    }),
    ("an in atom without a depth", |table| {
        table.kept[0].depth = 0
    }),
    ("an out atom with a depth", |table| table.kept[2].depth = 1),
    ("a wrong depth", |table| table.kept[1].depth = 1),
    ("a free slot with a depth", |table| table.kept[9].depth = 1),
    ("a muted rule with a depth", |table| table.kept[3].depth = 1),
    ("a free slot with a spoiler", |table| {
        table.kept[255].spoiler = 1
    }),
    ("a muted rule with a spoiler", |table| {
        table.kept[3].spoiler = 1
    }),
    ("a valid rule with a spoiler", |table| {
        table.kept[1].spoiler = 1
    }),
    ("a spoiled rule without one", |table| {
        table.kept[2].spoiler = 0
    }),
    ("a spoiler past the lists", |table| {
        table.kept[2].spoiler = 2
    }),
];

#[test]
fn any_other_state_depth_spoiler_or_filler_is_unsound() {
    let sound_one = table(&["1 <", "2 < 1 !3", "4 < 5", "~4 <"]);
    assert!(sound(&sound_one));
    for (what, change) in CHANGES {
        let mut table = sound_one.clone();
        change(&mut table);
        assert!(!sound(&table), "{what}");
    }
}

#[test]
fn repeated_atoms_same_rules_and_loops_through_a_negation_are_unsound() {
    let mut repeated = table(&["2 <", "1 < 2 3"]);
    repeated.rules[1].entries[1] = 2;
    repeated.kept[1] = Kept {
        depth: 2,
        spoiler: 0,
    };
    let mut same = table(&["1 <"]);
    same.rules[7] = same.rules[0];
    let mut negates_itself = table(&["1 <"]);
    negates_itself.kept[1].spoiler = 1;
    negates_itself.rules[1] = RawRule {
        state: HELD,
        head: 1,
        positives: 0,
        negatives: 1,
        entries: [1, 0, 0, 0, 0, 0, 0, 0],
    };
    for unsound in [repeated, same, negates_itself] {
        assert!(!sound(&unsound), "{:?}", &unsound.rules[..2]);
    }
}

#[test]
fn the_same_atoms_in_another_order_are_unsound_in_another_slot_and_in_their_own() {
    let ordered = table(&["1 < 2 3"]);
    let mut unordered = ordered.clone();
    unordered.rules[0].entries[..2].reverse();
    let mut both = ordered.clone();
    both.rules[1] = unordered.rules[0];
    assert!(sound(&ordered) && !sound(&unordered) && !sound(&both));
}

#[test]
fn each_list_ascends_by_itself() {
    assert!(sound(&table(&["9 < 2 3 !1", "9 < 3 !1 !2", "9 < 3 !2"])));
    let whole = table(&["9 < 2 4 5 !1 !3 !6"]);
    for (one, other) in [(0, 1), (1, 2), (0, 2), (3, 4), (4, 5), (3, 5)] {
        let mut swapped = whole.clone();
        swapped.rules[0].entries.swap(one, other);
        assert!(!sound(&swapped), "{one} and {other}");
    }
}

#[test]
fn an_entry_moved_to_the_other_list_is_judged_by_the_order_it_comes_to_stand_in() {
    let mut random = Random::seeded(65);
    let mut seen = [0, 0];
    for _ in 0..600 {
        let table = faulty(&mut random, Fault::MovedEnd);
        let ascends = |list: &[u16]| list.windows(2).all(|pair| pair[0] < pair[1]);
        let ordered = table.rules.iter().all(|raw| {
            let (positives, rest) = raw.entries.split_at(raw.positives.into());
            ascends(positives) && ascends(&rest[..raw.negatives.into()])
        });
        assert_eq!(sound(&table), ordered);
        seen[usize::from(ordered)] += 1;
    }
    assert!(
        seen.iter().all(|&count| count > 100),
        "both occur: {seen:?}"
    );
}

#[test]
fn the_misreadings_of_t4_are_unsound() {
    let mut first_valid_slot = table(&["1 < 2", "2 < 1", "2 <"]);
    first_valid_slot.kept.swap(1, 2);
    assert!(!sound(&first_valid_slot));
    let mut both_stay_in = table(&["1 < 2", "2 < 1", "2 <"]);
    both_stay_in.rules[2] = RawRule::EMPTY;
    assert!(!sound(&both_stay_in));
    both_stay_in.kept.swap(1, 2);
    assert!(!sound(&both_stay_in));
}

#[test]
fn generated_tables_are_sound_and_each_kind_of_damage_is_noticed() {
    let mut random = Random::seeded(62);
    let mut unsound = [0; FIELDS.len()];
    for round in 0..800 {
        let sound_one = sound_table(&mut random);
        assert!(sound(&sound_one));
        let damaged_one = damaged(&mut random, &sound_one, FIELDS[round % FIELDS.len()]);
        assert_ne!(damaged_one, sound_one);
        unsound[round % FIELDS.len()] += usize::from(!sound(&damaged_one));
    }
    assert!(
        unsound.iter().all(|&count| count >= 80),
        "of a hundred each: {unsound:?}"
    );
}

#[test]
fn each_fault_is_noticed() {
    let mut random = Random::seeded(64);
    let mut unsound = [0; FAULTS.len()];
    for round in 0..200 * FAULTS.len() {
        let kind = round % FAULTS.len();
        unsound[kind] += usize::from(!sound(&faulty(&mut random, FAULTS[kind])));
    }
    assert!(
        unsound.iter().all(|&count| count > 40),
        "of two hundred each: {unsound:?}"
    );
}

#[test]
fn damage_to_what_is_kept_is_always_noticed() {
    let mut random = Random::seeded(63);
    for _ in 0..300 {
        let sound_one = table_of(program(&mut random, Flavour::Churned));
        for field in [Field::Depth, Field::Spoiler] {
            assert!(
                !sound(&damaged(&mut random, &sound_one, field)),
                "{field:?}"
            );
        }
    }
}

#[test]
fn each_wrong_depth_and_spoiler_comes_up_alone_and_is_noticed() {
    let mut random = Random::seeded(66);
    let mut seen = [0; WRONGS.len()];
    for round in 0..100 * WRONGS.len() {
        let kind = round % WRONGS.len();
        let program = program(&mut random, FLAVOURS[round % FLAVOURS.len()]);
        let labelled = Labelled::of(any_marked(&mut random, program));
        if let Some(table) = kept_wrong(&mut random, &labelled, WRONGS[kind]) {
            assert!(!sound(&table), "{:?}", WRONGS[kind]);
            let found: Vec<Wrong> = wrongs(&table, &labelled).into_iter().collect();
            assert_eq!(found, [WRONGS[kind]]);
            seen[kind] += 1;
        }
    }
    assert!(
        seen.iter().all(|&count| count > 30),
        "of a hundred each: {seen:?}"
    );
}

#[test]
fn what_is_wrong_with_a_slot_is_told_by_its_name() {
    let rules = ["1 <", "2 < 1", "2 < 1 4", "3 < 5 6 !1 !2", "~1 < 2"];
    let right = table(&rules);
    let labelled = Labelled::of(crate::notation::program(&rules));
    let told = |slot: usize, depth: u16, spoiler: u16| {
        let mut table = right.clone();
        table.kept[slot] = Kept { depth, spoiler };
        assert!(!sound(&table));
        Vec::from_iter(wrongs(&table, &labelled))
    };
    assert_eq!(right.kept[3].spoiler, 1);
    assert_eq!(told(0, 0, 0), [Wrong::NoDepth]);
    assert_eq!(told(1, 1, 0), [Wrong::SmallDepth]);
    assert_eq!(told(1, 3, 0), [Wrong::LargeDepth]);
    assert_eq!(told(2, 2, 2), [Wrong::TwoDepths]);
    assert_eq!(told(2, 0, 1), [Wrong::NotSpoiling]);
    assert_eq!(told(3, 1, 1), [Wrong::DepthOfOut]);
    assert_eq!(told(3, 0, 2), [Wrong::LaterSpoiler]);
    assert_eq!(told(3, 0, 3), [Wrong::NegativeFirst]);
    assert_eq!(told(3, 0, 4), [Wrong::LaterSpoiler]);
    assert_eq!(told(3, 0, 5), [Wrong::PastTheLists]);
    assert_eq!(told(3, 0, 0), [Wrong::NoSpoiler]);
    assert_eq!(told(4, 1, 1), [Wrong::DepthInMuted, Wrong::SpoilerInMuted]);
    assert_eq!(told(5, 1, 1), [Wrong::DepthInFree, Wrong::SpoilerInFree]);
}
