//! Edge programs: at the limits of slots, atoms, entries, depth and layers.

use crate::limits::{ATOMS, ENTRIES, SLOTS};
use crate::rules::{Page, Program, Rule};

const LAST: u32 = ATOMS as u32 - 1;

fn rule(
    head: u32,
    positives: impl IntoIterator<Item = u32>,
    negatives: impl IntoIterator<Item = u32>,
) -> Rule {
    Rule {
        head,
        positives: positives.into_iter().collect(),
        negatives: negatives.into_iter().collect(),
    }
}

fn fact(head: u32) -> Rule {
    rule(head, [], [])
}

/// The rules from slot 0 on, the other slots free.
fn from_first_slot(rules: Vec<Rule>) -> Program {
    let pages = rules.into_iter().map(Page::unmuted);
    let mut program: Program = pages.map(Some).collect();
    program.resize(SLOTS, None);
    program
}

/// The rules in the last slots, those before them free.
fn in_last_slots(rules: Vec<Rule>) -> Program {
    let mut program = vec![None; SLOTS - rules.len()];
    program.extend(rules.into_iter().map(Page::unmuted).map(Some));
    program
}

/// None of them has a loop through a negation.
pub fn programs() -> Vec<Program> {
    let entries = ENTRIES as u32;
    let mut programs: Vec<Program> = few_rules().into_iter().map(from_first_slot).collect();
    programs.push(in_last_slots(vec![fact(LAST)]));
    programs.push(in_last_slots(vec![rule(LAST, [], [0, 1]), fact(1)]));
    programs.push(in_last_slots(
        (0..entries)
            .map(fact)
            .chain([rule(LAST, 0..entries, [])])
            .collect(),
    ));
    programs.extend(full_programs().into_iter().map(from_first_slot));
    programs
}

fn few_rules() -> Vec<Vec<Rule>> {
    let entries = ENTRIES as u32;
    vec![
        vec![],
        vec![fact(0)],
        vec![fact(LAST)],
        vec![rule(1, [1], [])],
        vec![rule(1, [1], []), fact(1)],
        vec![rule(0, 1..=entries, [])],
        vec![rule(0, [], 1..=entries)],
        vec![rule(LAST, LAST - entries..LAST, [])],
        vec![rule(1, [2], [2]), fact(2)],
        vec![rule(1, [2], [2])],
        vec![rule(1, [2], [3]), rule(1, [3], [2]), fact(2), fact(3)],
        vec![rule(1, [2], []), rule(2, [1], []), fact(2)],
    ]
}

/// Programs that hold a rule in every slot.
fn full_programs() -> Vec<Vec<Rule>> {
    let atoms = ATOMS as u32;
    let up: Vec<Rule> = (0..atoms)
        .map(|atom| rule(atom, atom.checked_sub(1), []))
        .collect();
    let down: Vec<Rule> = up.iter().rev().cloned().collect();
    let ladder: Vec<Rule> = (0..atoms)
        .map(|atom| rule(atom, [], atom.checked_sub(1)))
        .collect();
    let ladder_down: Vec<Rule> = ladder.iter().rev().cloned().collect();
    vec![
        (0..atoms).map(fact).collect(),
        (0..atoms).map(|atom| rule(LAST, [atom], [])).collect(),
        (0..atoms)
            .map(|atom| rule(atom, [(atom + 1) % atoms], []))
            .collect(),
        (0..LAST)
            .map(|atom| rule(LAST, [], [atom]))
            .chain([fact(0)])
            .collect(),
        (0..atoms)
            .map(|atom| rule(atom, [], atom.saturating_sub(ENTRIES as u32)..atom))
            .collect(),
        (0..atoms)
            .map(|atom| rule(atom, (1..=7).map(|step| (atom + step) % atoms), []))
            .collect(),
        up,
        down,
        ladder,
        ladder_down,
    ]
}
