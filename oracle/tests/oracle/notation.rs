//! Rules as the tests write them, shorter than specification 1.3: `1 < 2 !3` is `1 < 2, not 3`. A muted rule has a `~`
//! in front.

use oracle::calls;
use oracle::generate::marks::any_marked;
use oracle::generate::programs::{program as of_flavour, small, FLAVOURS};
use oracle::limits::{ATOMS, SLOTS};
use oracle::random::Random;
use oracle::rules::{Page, Program, Rule};
use oracle::sheet::shown;
use oracle::table::RawTable;

/// The head and both lists, in the order in which they are written.
pub fn lists(text: &str) -> (u32, Vec<u32>, Vec<u32>) {
    let (head, entries) = text.split_once('<').expect("a rule has a <");
    let number = |token: &str| token.parse().expect("a number");
    let (negatives, positives): (Vec<&str>, Vec<&str>) = entries
        .split_whitespace()
        .partition(|token| token.starts_with('!'));
    (
        number(head.trim()),
        positives.into_iter().map(number).collect(),
        negatives
            .into_iter()
            .map(|token| number(&token[1..]))
            .collect(),
    )
}

pub fn rule(text: &str) -> Rule {
    let (head, positives, negatives) = lists(text);
    Rule::of(head, &positives, &negatives)
}

/// A rule and its mark.
pub fn page(text: &str) -> Page {
    match text.strip_prefix('~') {
        Some(muted) => Page::muted(rule(muted)),
        None => Page::unmuted(rule(text)),
    }
}

/// What the slots from 0 on hold.
pub fn pages(texts: &[&str]) -> Program {
    texts.iter().map(|text| Some(page(text))).collect()
}

/// The rules in the slots from 0 on, the other slots free.
pub fn program(rules: &[&str]) -> Program {
    let mut program = pages(rules);
    program.resize(SLOTS, None);
    program
}

/// A small program of at most that many atoms and rules, half of the time with muted rules.
pub fn small_marked(random: &mut Random, atoms: usize, rules: usize) -> Program {
    let program = small(random, atoms, rules, 16);
    any_marked(random, program)
}

/// So many programs of every flavour in turn, half of them with muted rules.
pub fn of_flavours(random: &mut Random, count: usize) -> Vec<Program> {
    let flavours = FLAVOURS.iter().cycle().take(count);
    flavours
        .map(|&flavour| {
            let program = of_flavour(random, flavour);
            any_marked(random, program)
        })
        .collect()
}

/// The slot that the added rule takes, or the number of the refusal.
pub fn add(table: &mut RawTable, text: &str) -> Result<u32, u32> {
    let (head, positives, negatives) = lists(text);
    calls::add(table, head, &positives, &negatives).map_err(|refusal| refusal.number())
}

/// Replaces what the slot holds; the number of the refusal where it is refused.
pub fn replace(table: &mut RawTable, slot: u32, text: &str) -> Result<(), u32> {
    let (head, positives, negatives) = lists(text);
    let answer = calls::replace(table, slot, head, &positives, &negatives);
    answer.map_err(|refusal| refusal.number())
}

/// Sets the mark of the slot; the number of the refusal where it is refused.
pub fn mute(table: &mut RawTable, slot: u32, mark: u32) -> Result<(), u32> {
    calls::mute(table, slot, mark).map_err(|refusal| refusal.number())
}

/// The table after adding the rules to the empty one and muting those that are to be muted; their slots count from 0.
pub fn table(rules: &[&str]) -> RawTable {
    let mut table = RawTable::empty();
    for (slot, text) in (0..).zip(rules) {
        let added = add(&mut table, text.trim_start_matches('~'));
        assert_eq!(added, Ok(slot), "adding {text}");
        if text.starts_with('~') {
            assert_eq!(mute(&mut table, slot, 1), Ok(()), "muting {text}");
        }
    }
    table
}

/// The answers of the label call for all atoms, the absent ones left out.
pub fn labels(table: &RawTable) -> Vec<String> {
    (0..ATOMS as u32)
        .map(|atom| {
            shown(
                atom,
                calls::label(table, atom).expect("a sound table and an atom"),
            )
        })
        .filter(|line| !line.ends_with("absent"))
        .collect()
}
