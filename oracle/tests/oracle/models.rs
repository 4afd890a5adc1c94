//! Admissible models: every subset tried, against the definitions and the large-table path.

use crate::notation::{of_flavours, program, small_marked};
use oracle::alternation::model;
use oracle::atoms::AtomSet;
use oracle::generate::edges;
use oracle::generate::marks::any_marked;
use oracle::generate::programs::unlayered;
use oracle::loops::has_loop_through_negation;
use oracle::model::{admissible, admissible_models, founded};
use oracle::random::Random;
use oracle::rules::{unmuted, Page, Program, Rule};

fn set(atoms: &[u32]) -> AtomSet {
    atoms.iter().copied().collect()
}

/// Founded word for word: some order among all orders of M does it.
fn some_order_founds(program: &[Option<Page>], earlier: &[u32], rest: &[u32]) -> bool {
    let m: AtomSet = earlier.iter().chain(rest).copied().collect();
    rest.is_empty()
        || rest.iter().any(|&next| {
            let supports = |rule: &Rule| {
                rule.head == next
                    && rule.valid_in(&m)
                    && rule.positives.iter().all(|entry| earlier.contains(entry))
            };
            let others: Vec<u32> = rest.iter().copied().filter(|&atom| atom != next).collect();
            unmuted(program).any(|(_, rule)| supports(rule))
                && some_order_founds(program, &[earlier, &[next]].concat(), &others)
        })
}

/// A program that may have a loop through a negation, half of the time with muted rules.
fn any_program(random: &mut Random, atoms: usize, rules: usize) -> Program {
    let program = unlayered(random, atoms, rules);
    any_marked(random, program)
}

#[test]
fn founded_is_that_some_order_exists() {
    let mut random = Random::seeded(11);
    let mut seen = [0, 0];
    for _ in 0..400 {
        let program = any_program(&mut random, 5, 7);
        for chosen in 0..32u32 {
            let atoms: Vec<u32> = (0..5).filter(|atom| chosen >> atom & 1 == 1).collect();
            let found = founded(&program, &set(&atoms));
            assert_eq!(
                found,
                some_order_founds(&program, &[], &atoms),
                "{atoms:?} in {program:?}"
            );
            seen[usize::from(found)] += 1;
        }
    }
    assert!(
        seen.iter().all(|&count| count > 500),
        "both answers occur: {seen:?}"
    );
}

#[test]
fn without_a_loop_through_a_negation_exactly_one_model_is_admissible() {
    let mut random = Random::seeded(12);
    for _ in 0..3_000 {
        let program = small_marked(&mut random, 8, 12);
        assert!(
            !has_loop_through_negation(&program),
            "layers let no loop in: {program:?}"
        );
        assert_eq!(
            Some(admissible_models(&program)),
            model(&program).map(|m| vec![m]),
            "{program:?}"
        );
    }
}

#[test]
fn on_large_tables_the_two_sides_meet_in_an_admissible_model() {
    let mut random = Random::seeded(14);
    let generated = of_flavours(&mut random, 180).into_iter();
    for program in generated.chain(edges::programs()) {
        let m = model(&program).expect("no loop through a negation");
        assert!(admissible(&program, &m), "{program:?}");
    }
}

#[test]
fn with_loops_there_are_none_one_or_several_and_the_two_sides_meet_only_in_the_only_one() {
    let mut random = Random::seeded(13);
    let mut counts = [0; 3];
    let mut met = 0;
    for _ in 0..4_000 {
        let program = any_program(&mut random, 6, 8);
        let models = admissible_models(&program);
        if let Some(m) = model(&program) {
            assert_eq!(models, [m], "{program:?}");
            met += 1;
        } else {
            assert!(has_loop_through_negation(&program), "{program:?}");
        }
        if has_loop_through_negation(&program) {
            counts[models.len().min(2)] += 1;
        }
    }
    assert!(
        counts.iter().all(|&count| count > 20),
        "none, one and several occur: {counts:?}"
    );
    assert!(met > 500, "the sides meet often: {met}");
}

#[test]
fn muted_rules_have_no_part_in_models() {
    assert_eq!(
        admissible_models(&program(&["~1 <", "2 < 1", "3 < !1"])),
        [set(&[3])]
    );
    assert_eq!(admissible_models(&program(&["~1 < !1"])), [set(&[])]);
    let muted = program(&["1 < 2", "2 < !3", "~3 < !1"]);
    assert_eq!(admissible_models(&muted), [set(&[1, 2])]);
    assert!(!admissible(&muted, &set(&[3])));
}

#[test]
fn example_1_has_one_model() {
    assert_eq!(
        admissible_models(&program(&["1 <", "2 < 1"])),
        [set(&[1, 2])]
    );
}

#[test]
fn example_2_has_two_models_and_rejects_the_sets_named_there() {
    let program = program(&["1 < 2", "2 < !3", "3 < !1"]);
    assert_eq!(admissible_models(&program), [set(&[1, 2]), set(&[3])]);
    for rejected in [&[][..], &[2, 3], &[1, 2, 3]] {
        assert!(!admissible(&program, &set(rejected)), "{rejected:?}");
    }
}

#[test]
fn a_rule_against_its_own_head_leaves_no_model_unless_the_head_stands_anyway() {
    assert_eq!(admissible_models(&program(&["1 < !1"])), []);
    assert_eq!(admissible_models(&program(&["1 < !1", "1 <"])), [set(&[1])]);
}
