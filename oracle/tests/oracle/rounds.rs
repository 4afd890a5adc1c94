//! Layers and rounds over the slots: tables worked by hand, every path, and the rounds made word for word.

use crate::notation::{of_flavours, program, small_marked};
use oracle::alternation::model;
use oracle::atoms::AtomSet;
use oracle::depth::depths;
use oracle::generate::edges;
use oracle::limits::ATOMS;
use oracle::random::Random;
use oracle::rounds::rounds;
use oracle::rules::{held, unmuted, Page, Program, Rule};
use oracle::strata::layers;

/// The rounds of each layer of the rules in the slots from 0 on.
fn counts(rules: &[&str]) -> Vec<u32> {
    counts_of(&program(rules))
}

fn counts_of(program: &[Option<Page>]) -> Vec<u32> {
    let m = model(program).expect("no loop through a negation");
    rounds(program, &layers(program), &m)
}

/// Small programs, programs of every flavour and the edge programs.
fn programs(seed: u64) -> Vec<Program> {
    let mut random = Random::seeded(seed);
    let small = (0..3_000).map(|_| small_marked(&mut random, 7, 12));
    let mut programs: Vec<Program> = small.collect();
    programs.extend(of_flavours(&mut random, 400));
    programs.extend(edges::programs());
    programs
}

#[test]
fn the_empty_table_has_one_layer_and_one_round() {
    assert_eq!(counts(&[]), [1]);
}

#[test]
fn facts_are_found_in_one_round_and_the_next_adds_none() {
    assert_eq!(counts(&["1 <"]), [2]);
    assert_eq!(counts(&["1 <", "2 <", "7 <"]), [2]);
}

#[test]
fn a_chain_along_the_slots_is_found_in_one_round() {
    assert_eq!(counts(&["1 <", "2 < 1", "3 < 2", "4 < 3"]), [2]);
}

#[test]
fn a_chain_against_the_slots_has_a_round_for_each_atom_and_one_more() {
    assert_eq!(counts(&["4 < 3", "3 < 2", "2 < 1", "1 <"]), [5]);
    let chain = |atom: u32| {
        Rule::of(
            atom,
            &atom.checked_sub(1).map_or(vec![], |below| vec![below]),
            &[],
        )
    };
    let down: Program = (0..ATOMS as u32)
        .rev()
        .map(|atom| Some(Page::unmuted(chain(atom))))
        .collect();
    assert_eq!(counts_of(&down), [257]);
}

#[test]
fn each_turn_of_a_chain_against_the_slots_costs_a_round() {
    assert_eq!(counts(&["1 <", "3 < 2", "2 < 1", "4 < 3"]), [3]);
    assert_eq!(counts(&["4 < 3", "1 <", "3 < 2", "2 < 1"]), [4]);
}

#[test]
fn a_layer_in_which_nothing_is_in_has_one_round() {
    assert_eq!(counts(&["1 <", "2 < !1", "3 < !2"]), [2, 1, 2]);
    assert_eq!(counts(&["2 < 1", "3 < !2", "4 < !3"]), [1, 2, 1]);
    assert_eq!(counts(&["1 <", "2 < 1 !1", "3 < 2"]), [2, 1]);
}

#[test]
fn layers_count_their_rounds_each_from_its_own_start() {
    // Against the slots in layer 0, along them in layer 1, against them again in layer 2.
    let rules = [
        "22 < 21",
        "21 < 20",
        "20 < !13",
        "2 < 1",
        "1 < 0",
        "0 <",
        "10 < !5",
        "11 < 10",
        "13 < 12 !5",
    ];
    assert_eq!(counts(&rules), [4, 2, 4]);
}

#[test]
fn an_entry_of_a_lower_layer_is_there_from_the_first_round() {
    assert_eq!(counts(&["4 < 3 !9", "3 < 2", "2 < 1", "1 <"]), [4, 2]);
}

#[test]
fn atoms_that_only_hold_each_other_up_are_never_found() {
    assert_eq!(counts(&["1 < 2", "2 < 1"]), [1]);
    assert_eq!(counts(&["1 < 2", "2 < 1", "2 <"]), [3]);
    assert_eq!(counts(&["2 <", "1 < 2", "2 < 1"]), [2]);
}

#[test]
fn a_rule_that_needs_its_own_head_adds_nothing() {
    assert_eq!(counts(&["1 < 1"]), [1]);
    assert_eq!(counts(&["1 < 1 2", "1 < 2", "2 <"]), [3]);
    assert_eq!(counts(&["2 <", "1 < 1 2", "1 < 2"]), [2]);
}

#[test]
fn an_atom_is_found_once_by_the_first_rule_that_can() {
    // The last slot but one finds 3 in round 2, before slot 0 could in round 3.
    assert_eq!(counts(&["3 < 2", "2 < 1", "3 < 1", "1 <"]), [3]);
    assert_eq!(counts(&["3 < 2", "2 < 1", "1 <"]), [4]);
    // The rule that gives 4 its depth could add it in round 2; the longer chain along the slots does so in round 1.
    assert_eq!(counts(&["4 < 1", "1 <", "2 < 1", "3 < 2", "4 < 3"]), [2]);
}

#[test]
fn a_rule_waits_for_the_last_of_its_entries() {
    assert_eq!(counts(&["2 <", "3 < 2", "4 < 2 3"]), [2]);
    assert_eq!(counts(&["4 < 2 3", "3 < 1", "2 <", "1 <"]), [4]);
    assert_eq!(counts(&["3 < 1", "4 < 2 3", "1 <", "2 <"]), [3]);
}

#[test]
fn a_ladder_of_negations_has_as_many_layers_as_atoms() {
    let ladder = |atom: u32| {
        Rule::of(
            atom,
            &[],
            &atom.checked_sub(1).map_or(vec![], |below| vec![below]),
        )
    };
    let up = (0..ATOMS as u32).map(|atom| Page::unmuted(ladder(atom)));
    let up: Program = up.map(Some).collect();
    let down: Program = up.iter().rev().cloned().collect();
    let expected: Vec<u32> = (0..ATOMS)
        .map(|layer| if layer % 2 == 0 { 2 } else { 1 })
        .collect();
    assert_eq!(counts_of(&up), expected);
    assert_eq!(counts_of(&down), expected);
}

#[test]
fn a_muted_rule_makes_a_layer_and_adds_nothing_in_its_rounds() {
    assert_eq!(counts(&["~1 <"]), [1]);
    assert_eq!(counts(&["1 < !2"]), [1, 2]);
    assert_eq!(counts(&["~1 < !2"]), [1, 1]);
    // 3 waits for the second rule of 2, and 4 for nothing.
    assert_eq!(
        counts(&["3 < 2", "~2 <", "4 <", "2 < 1", "1 < 4", "~5 < !4"]),
        [4, 1]
    );
    assert_eq!(
        counts(&["3 < 2", "2 <", "4 <", "2 < 1", "1 < 4", "5 < !4"]),
        [3, 1]
    );
}

#[test]
fn layers_by_hand() {
    let of = |rules: &[&str]| layers(&program(rules))[..5].to_vec();
    assert_eq!(of(&[]), [0, 0, 0, 0, 0]);
    assert_eq!(of(&["1 < 2", "2 < 1 3"]), [0, 0, 0, 0, 0]);
    assert_eq!(of(&["1 < !2", "3 < 1"]), [0, 1, 0, 1, 0]);
    // The path with the most negative steps counts, wherever it starts among the rules.
    assert_eq!(
        of(&["1 < !2", "1 < !3", "3 < 4", "4 < !2"]),
        [0, 2, 0, 1, 1]
    );
    // A rule that no atom is found by counts like any other, and so does an atom in both lists.
    assert_eq!(of(&["1 <", "2 < !1", "3 < 2 4"]), [0, 0, 1, 1, 0]);
    assert_eq!(of(&["1 < 2 !2", "3 < 1 2"]), [0, 1, 0, 1, 0]);
    // So does a muted rule.
    assert_eq!(of(&["~1 < !2", "3 < 1", "~4 < !3"]), [0, 1, 0, 1, 2]);
    // Atoms on a loop without a negation have one layer.
    assert_eq!(of(&["1 < 2", "2 < 3", "3 < 1", "2 < !4"]), [0, 1, 1, 1, 0]);
}

#[test]
#[should_panic(expected = "a program without a loop through a negation")]
fn layers_of_a_loop_through_a_negation_are_not_told() {
    layers(&program(&["1 < !2", "2 < 1"]));
}

/// The most negative steps on a path that goes on from the last of these atoms and meets no atom twice. Without a loop
/// through a negation a path that meets one twice has no more.
fn most_on_a_path(program: &[Option<Page>], path: &[u32]) -> u32 {
    let last = path.last().copied();
    let on = |entry: u32| most_on_a_path(program, &[path, &[entry]].concat());
    let fresh = |entry: &&u32| !path.contains(entry);
    let most = |rule: &Rule| {
        let positive = rule.positives.iter().filter(fresh).map(|&entry| on(entry));
        let negative = rule
            .negatives
            .iter()
            .filter(fresh)
            .map(|&entry| 1 + on(entry));
        positive.chain(negative).max().unwrap_or(0)
    };
    let rules = held(program).filter(|(_, rule)| Some(rule.head) == last);
    rules.map(|(_, rule)| most(rule)).max().unwrap_or(0)
}

#[test]
fn a_layer_is_the_most_negative_steps_over_all_paths_of_a_small_program() {
    let mut random = Random::seeded(41);
    let mut seen = [0; 4];
    for _ in 0..6_000 {
        let program = small_marked(&mut random, 9, 16);
        let layers = layers(&program);
        for atom in 0..ATOMS as u32 {
            let most = most_on_a_path(&program, &[atom]);
            assert_eq!(layers[atom as usize], most, "{atom} in {program:?}");
        }
        seen[*layers.iter().max().unwrap() as usize] += 1;
    }
    assert!(
        seen.iter().all(|&count| count > 30),
        "every height: {seen:?}"
    );
}

/// The most negative steps from each atom to each other, closed over the atoms in between.
fn most_between(program: &[Option<Page>]) -> Vec<Vec<Option<u32>>> {
    let mut most = vec![vec![None; ATOMS]; ATOMS];
    for (_, rule) in held(program) {
        let row = &mut most[rule.head as usize];
        rule.positives
            .iter()
            .for_each(|&entry| row[entry as usize] = row[entry as usize].max(Some(0)));
        rule.negatives
            .iter()
            .for_each(|&entry| row[entry as usize] = Some(1));
    }
    for between in 0..ATOMS {
        let onward = most[between].clone();
        for row in &mut most {
            let Some(before) = row[between] else {
                continue;
            };
            for (to, &after) in row.iter_mut().zip(&onward) {
                *to = (*to).max(after.map(|after| before + after));
            }
        }
    }
    most
}

#[test]
fn a_layer_is_the_most_negative_steps_to_any_atom_of_a_large_program() {
    let mut random = Random::seeded(42);
    let generated = of_flavours(&mut random, 60).into_iter();
    for program in generated.chain(edges::programs()) {
        let most = most_between(&program);
        let expected: Vec<u32> = most
            .iter()
            .map(|row| row.iter().flatten().copied().max().unwrap_or(0))
            .collect();
        assert_eq!(layers(&program), expected, "{program:?}");
    }
}

#[test]
fn layers_grow_over_negative_entries_never_fall_over_positive_ones_and_none_is_empty() {
    for program in programs(43) {
        let layers = layers(&program);
        for (_, rule) in held(&program) {
            let layer = layers[rule.head as usize];
            assert!(
                rule.negatives
                    .iter()
                    .all(|&entry| layers[entry as usize] < layer),
                "{rule:?} in {program:?}"
            );
            assert!(
                rule.positives
                    .iter()
                    .all(|&entry| layers[entry as usize] <= layer),
                "{rule:?} in {program:?}"
            );
        }
        let top = *layers.iter().max().unwrap();
        assert!(
            (0..=top).all(|layer| layers.contains(&layer)),
            "{program:?}"
        );
    }
}

/// The rounds as specification 2.15 tells them, and what they find. Layers are taken lowest first. A round goes over the
/// slots in order and puts in the head of each unmuted rule of the layer that is valid in what was found up to there.
/// The layer ends at its first round that adds none.
fn made(program: &[Option<Page>], layers: &[u32]) -> (Vec<u32>, AtomSet) {
    let mut found = AtomSet::empty();
    let mut counts = Vec::new();
    for layer in 0..=*layers.iter().max().unwrap() {
        let mut rounds = 0;
        let mut adds = true;
        while adds {
            adds = false;
            rounds += 1;
            let of_layer = |(_, rule): &(u32, &Rule)| layers[rule.head as usize] == layer;
            for (_, rule) in unmuted(program).filter(of_layer) {
                if rule.valid_in(&found) && found.insert(rule.head) {
                    adds = true;
                }
            }
        }
        counts.push(rounds);
    }
    (counts, found)
}

#[test]
fn rounds_made_over_the_slots_are_as_many_and_find_the_model() {
    let mut seen = [0; 5];
    for program in programs(44) {
        let layers = layers(&program);
        let m = model(&program).expect("no loop through a negation");
        let counts = rounds(&program, &layers, &m);
        assert_eq!((counts.clone(), m), made(&program, &layers), "{program:?}");
        counts
            .iter()
            .for_each(|&count| seen[(count as usize).min(5) - 1] += 1);
    }
    assert!(
        seen.iter().all(|&count| count > 30),
        "one to many rounds occur: {seen:?}"
    );
}

#[test]
fn a_layer_has_one_round_two_if_an_atom_is_in_and_no_more_than_its_greatest_depth_and_one() {
    let (mut least, mut between, mut most) = (0, 0, 0);
    for program in programs(45) {
        let layers = layers(&program);
        let m = model(&program).expect("no loop through a negation");
        let depths = depths(&program, &m);
        for (layer, count) in (0..).zip(rounds(&program, &layers, &m)) {
            let of_layer = |&atom: &usize| layers[atom] == layer;
            let greatest = (0..ATOMS)
                .filter(of_layer)
                .filter_map(|atom| depths[atom])
                .max();
            let fewest = if greatest.is_some() { 2 } else { 1 };
            let bound = 1 + greatest.unwrap_or(0);
            assert!(
                (fewest..=bound).contains(&count),
                "layer {layer}: {count} in {program:?}"
            );
            least += usize::from(bound > 2 && count == 2);
            between += usize::from(2 < count && count < bound);
            most += usize::from(bound > 2 && count == bound);
        }
    }
    assert!(
        least > 100 && between > 100 && most > 100,
        "{least} at the least, {between} between, {most} at the most"
    );
}
