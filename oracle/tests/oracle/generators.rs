//! The generators: what they promise, and that a seed repeats.

use oracle::alternation::model;
use oracle::generate::damage::{damaged, FIELDS};
use oracle::generate::programs::{program, Flavour, FLAVOURS};
use oracle::generate::{edges, mixed_table, sheets, sound_table};
use oracle::labels::{Label, Labelled};
use oracle::limits::{INPUT_BYTES, LINE_BYTES, SLOTS};
use oracle::loops::has_loop_through_negation;
use oracle::questions::rule_from;
use oracle::random::Random;
use oracle::rounds::rounds;
use oracle::rules::{held, holds, Program};
use oracle::sound::sound;
use oracle::strata::layers;
use oracle::table::RawTable;
use std::collections::BTreeSet;

fn assert_sound_rules(program: &Program) {
    assert_eq!(program.len(), SLOTS);
    assert!(!has_loop_through_negation(program));
    for (slot, rule) in held(program) {
        let list = |set: &BTreeSet<u32>| set.iter().copied().collect::<Vec<u32>>();
        let (positives, negatives) = (list(&rule.positives), list(&rule.negatives));
        assert_eq!(
            rule_from(rule.head, &positives, &negatives).as_ref(),
            Ok(rule)
        );
        assert!(!holds(&program[..slot as usize], rule), "{rule:?} twice");
    }
}

#[test]
fn programs_of_every_flavour_and_edge_have_sound_rules() {
    let mut random = Random::seeded(101);
    for flavour in FLAVOURS {
        for _ in 0..20 {
            assert_sound_rules(&program(&mut random, flavour));
        }
    }
    for program in edges::programs() {
        assert_sound_rules(&program);
        assert!(sound(&RawTable::keeping(&Labelled::of(program))));
    }
}

fn held_count(program: &Program) -> usize {
    held(program).count()
}

fn deepest(program: Program) -> u32 {
    let depth = |label: Label| {
        if let Label::In { depth, .. } = label {
            depth
        } else {
            0
        }
    };
    Labelled::of(program)
        .labels
        .into_iter()
        .map(depth)
        .max()
        .unwrap()
}

#[test]
fn flavours_are_what_they_are_called() {
    let mut random = Random::seeded(102);
    let mut deep_chains = 0;
    let mut with_holes = 0;
    for _ in 0..30 {
        assert_eq!(held_count(&program(&mut random, Flavour::Full)), 256);
        assert!((254..256).contains(&held_count(&program(&mut random, Flavour::NearFull))));
        let chain = program(&mut random, Flavour::ChainDown);
        let length = held_count(&chain) as u32;
        assert_eq!(deepest(chain), length);
        deep_chains += usize::from(length > 200);
        let churned = program(&mut random, Flavour::Churned);
        let last_held = churned.iter().rposition(Option::is_some).unwrap_or(0);
        with_holes += usize::from(last_held >= held_count(&churned));
    }
    assert!(
        deep_chains > 0 && with_holes > 25,
        "{deep_chains} deep chains, {with_holes} with free slots between"
    );
    assert!(edges::programs()
        .into_iter()
        .any(|program| deepest(program) == 256));
}

#[test]
fn layered_chains_have_several_layers_of_many_rounds_and_some_of_one() {
    let mut random = Random::seeded(106);
    let (mut tall, mut long, mut short) = (0, 0, 0);
    for _ in 0..100 {
        let program = program(&mut random, Flavour::LayeredChains);
        let layers = layers(&program);
        let m = model(&program).expect("no loop through a negation");
        let counts = rounds(&program, &layers, &m);
        assert!((2..=10).contains(&counts.len()), "{counts:?}");
        tall += usize::from(counts.len() >= 4);
        long += counts[1..].iter().filter(|&&count| count >= 4).count();
        short += counts[1..].iter().filter(|&&count| count == 1).count();
    }
    assert!(
        tall > 60 && long > 200 && short > 30,
        "{tall} tables of 4 layers, {long} layers of 4 rounds, {short} of one"
    );
}

/// How many bytes' fields differ, counted in the encoding by fields.
fn differing_fields(one: &RawTable, other: &RawTable) -> usize {
    let mut count = 0;
    for (a, b) in one.rules.iter().zip(&other.rules) {
        let same = [
            a.state == b.state,
            a.head == b.head,
            a.positives == b.positives,
            a.negatives == b.negatives,
        ];
        count += same.iter().filter(|same| !**same).count();
        count += a
            .entries
            .iter()
            .zip(&b.entries)
            .filter(|(a, b)| a != b)
            .count();
    }
    for (a, b) in one.kept.iter().zip(&other.kept) {
        count += usize::from(a.depth != b.depth) + usize::from(a.spoiler != b.spoiler);
    }
    count
}

#[test]
fn damage_changes_exactly_one_field() {
    let mut random = Random::seeded(103);
    for _ in 0..40 {
        let table = sound_table(&mut random);
        for field in FIELDS {
            assert_eq!(
                differing_fields(&table, &damaged(&mut random, &table, field)),
                1,
                "{field:?}"
            );
        }
    }
}

#[test]
fn sheets_have_the_lengths_that_they_are_for() {
    let mut random = Random::seeded(104);
    let mut lengths = Vec::new();
    for _ in 0..40 {
        let sheet = sheets::sheet(&mut random, sheets::Flavour::LongLines);
        lengths.extend(sheet.split(|&byte| byte == b'\n').map(<[u8]>::len));
    }
    for length in LINE_BYTES - 1..=LINE_BYTES + 2 {
        assert!(lengths.contains(&length), "a line of {length} bytes");
    }
    let cut: Vec<usize> = (0..10)
        .map(|_| sheets::sheet(&mut random, sheets::Flavour::Cut).len())
        .collect();
    assert!(cut.iter().all(|&length| length >= INPUT_BYTES), "{cut:?}");
    assert!(
        cut.iter().any(|&length| length > INPUT_BYTES + 100),
        "{cut:?}"
    );
}

#[test]
fn sheets_meet_every_refusal_that_a_sheet_can_meet() {
    let mut random = Random::seeded(105);
    let mut printed = String::new();
    for round in 0..80 {
        let flavour = sheets::FLAVOURS[round % sheets::FLAVOURS.len()];
        let input = sheets::sheet(&mut random, flavour);
        printed += &String::from_utf8(oracle::sheet::run(&input)).unwrap();
    }
    for number in [1, 2, 3, 4, 5, 6, 7, 8, 9, 10, 12, 13, 14] {
        assert!(
            printed.contains(&format!(" refused {number}\n")),
            "{number}"
        );
    }
    for answer in [
        "\nslot 255\n",
        "\nremoved ",
        "\nreplaced ",
        "\nwhy ",
        " in 256 ",
        " out\n",
    ] {
        assert!(printed.contains(answer), "{answer:?}");
    }
}

#[test]
fn a_seed_repeats_and_another_differs() {
    let tables = |seed| {
        let mut random = Random::seeded(seed);
        (0..5).map(|_| mixed_table(&mut random)).collect::<Vec<_>>()
    };
    assert_eq!(tables(1), tables(1));
    assert_ne!(tables(1), tables(2));
    let sheet = |seed| sheets::sheet(&mut Random::seeded(seed), sheets::Flavour::Mixed);
    assert_eq!(sheet(1), sheet(1));
    assert_ne!(sheet(1), sheet(2));
}
