//! Loops through a negation: the walk against the closure of the dependencies.

use crate::notation::program;
use oracle::generate::marks::any_marked;
use oracle::generate::programs::unlayered;
use oracle::loops::has_loop_through_negation;
use oracle::random::Random;
use oracle::rules::{held, Page};

/// Closes "depends on" and "depends on with a negative step" over all atoms in between, and
/// looks for an atom that depends on itself in the second way.
fn closure_has_loop(program: &[Option<Page>], atoms: usize) -> bool {
    let mut plain = vec![vec![false; atoms]; atoms];
    let mut negative = plain.clone();
    for (_, rule) in held(program) {
        rule.entries()
            .for_each(|entry| plain[rule.head as usize][entry as usize] = true);
        rule.negatives
            .iter()
            .for_each(|&entry| negative[rule.head as usize][entry as usize] = true);
    }
    // Twice over all atoms in between: a way through a negative step may need both halves closed.
    for between in (0..atoms).chain(0..atoms) {
        for from in 0..atoms {
            for to in 0..atoms {
                negative[from][to] |= (negative[from][between] && plain[between][to])
                    || (plain[from][between] && negative[between][to]);
                plain[from][to] |= plain[from][between] && plain[between][to];
            }
        }
    }
    (0..atoms).any(|atom| negative[atom][atom])
}

#[test]
fn the_walk_finds_what_the_closure_finds() {
    let mut random = Random::seeded(21);
    let mut seen = [0, 0];
    for _ in 0..4_000 {
        let program = unlayered(&mut random, 9, 7);
        let program = any_marked(&mut random, program);
        let found = has_loop_through_negation(&program);
        assert_eq!(found, closure_has_loop(&program, 9), "{program:?}");
        seen[usize::from(found)] += 1;
    }
    assert!(
        seen.iter().all(|&count| count > 300),
        "both answers occur: {seen:?}"
    );
}

#[test]
fn a_loop_of_length_one_to_many_is_found() {
    for length in [1, 2, 3, 100, 256] {
        let mut rules: Vec<String> = (1..length)
            .map(|atom| format!("{atom} < {}", atom - 1))
            .collect();
        assert!(
            !has_loop_through_negation(&program(&texts(&rules))),
            "open chain of {length}"
        );
        rules.push(format!("0 < !{}", length - 1));
        assert!(
            has_loop_through_negation(&program(&texts(&rules))),
            "closed chain of {length}"
        );
    }
}

fn texts(rules: &[String]) -> Vec<&str> {
    rules.iter().map(String::as_str).collect()
}

#[test]
fn an_atom_in_both_lists_makes_the_head_depend_on_it_both_ways() {
    assert!(has_loop_through_negation(&program(&["1 < 2 !2", "2 < 1"])));
    assert!(!has_loop_through_negation(&program(&["1 < 2 !2", "2 < 3"])));
}

#[test]
fn marks_play_no_part() {
    for rules in [
        &["~1 < !1"][..],
        &["~1 < !2", "2 < 1"],
        &["1 < !2", "~2 < 1"],
        &["~1 < !2", "~2 < 3", "~3 < 1"],
    ] {
        assert!(has_loop_through_negation(&program(rules)), "{rules:?}");
    }
    assert!(!has_loop_through_negation(&program(&["~1 < 2", "~2 < 1"])));
}

#[test]
fn labels_play_no_part() {
    assert!(has_loop_through_negation(&program(&[
        "1 <", "2 <", "1 < 9 !2", "2 < 9 1"
    ])));
}
