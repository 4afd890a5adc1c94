//! The tables that are timed.

use compare::boundary::from_slow;
use oracle::generate::table_of;
use oracle::limits::SLOTS;
use oracle::loops::has_loop_through_negation;
use oracle::random::Random;
use oracle::rules::{holds, Page, Program, Rule};
use yeqontur::raw::Table;

fn program(rules: Vec<Rule>) -> Program {
    let pages = rules.into_iter().map(Page::unmuted);
    let mut slots: Program = pages.map(Some).collect();
    slots.resize(SLOTS, None);
    slots
}

/// Each atom from the one before; the fact stands in the lowest slot, or in the highest.
fn chain(length: u32, ascending: bool) -> Program {
    let mut rules = vec![Rule::of(0, &[], &[])];
    rules.extend((1..length).map(|a| Rule::of(a, &[a - 1], &[])));
    if !ascending {
        rules.reverse();
    }
    program(rules)
}

/// Each atom if the one before is not in; the fact stands in the highest slot, so that strata rise against the slots.
fn negations(length: u32) -> Program {
    let mut rules = vec![Rule::of(0, &[], &[])];
    rules.extend((1..length).map(|a| Rule::of(a, &[], &[a - 1])));
    rules.reverse();
    program(rules)
}

/// A rule in every slot, all with one head, so that each has to be held against every other to know it is not the same.
fn one_head() -> Program {
    program(
        (0..SLOTS as u32)
            .map(|a| Rule::of(255, &[a], &[]))
            .collect(),
    )
}

/// Atom groups of five, each group above the one before by a negation.
fn strata(count: u32) -> Program {
    let mut rules = Vec::new();
    for k in 0..count {
        let base = 5 * k;
        let below: Vec<u32> = if k == 0 { vec![] } else { vec![base - 1] };
        rules.push(Rule::of(base, &[], &below));
        rules.extend((1..5).map(|i| Rule::of(base + i, &[base + i - 1], &[])));
    }
    program(rules)
}

/// Random rules with this many entries each; entries mostly below the head, so that most are accepted.
fn random(seed: u64, count: usize, entries: usize) -> Program {
    let mut random = Random::seeded(seed);
    let mut slots: Program = vec![None; SLOTS];
    let mut filled = 0;
    while filled < count {
        let head = random.below(250) as u32 + 4;
        let mut list: Vec<u32> = Vec::new();
        while list.len() < entries.min(head as usize) {
            let x = random.below(head as usize) as u32;
            if !list.contains(&x) {
                list.push(x);
            }
        }
        let cut = random.below(list.len() + 1);
        let new = Rule::of(head, &list[cut..], &list[..cut]);
        if holds(&slots, &new) {
            continue;
        }
        slots[filled] = Some(Page::unmuted(new));
        filled += 1;
    }
    assert!(!has_loop_through_negation(&slots));
    slots
}

/// The shapes by name.
pub fn all() -> Vec<(&'static str, Table)> {
    let shapes = vec![
        ("chain of 200, ascending", chain(200, true)),
        ("chain of 200, descending", chain(200, false)),
        ("30 strata", strata(30)),
        ("random, 175 rules", random(1, 175, 3)),
        ("full, 256 rules", random(2, 256, 3)),
        ("dense, 255 rules of 8 entries", random(3, 255, 8)),
        ("200 negations, descending", negations(200)),
        ("256 rules of one head", one_head()),
    ];
    shapes
        .into_iter()
        .map(|(name, p)| (name, from_slow(&table_of(p))))
        .collect()
}
