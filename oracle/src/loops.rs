//! Loops through a negation, found by walking. They go by all rules, muted or not.

use crate::atoms::AtomSet;
use crate::limits::ATOMS;
use crate::rules::{held, Page};

/// For each atom, the atoms it depends on.
pub(crate) fn dependencies(program: &[Option<Page>]) -> Vec<Vec<u32>> {
    let mut depends_on = vec![Vec::new(); ATOMS];
    let mut noted = vec![AtomSet::empty(); ATOMS];
    for (_, rule) in held(program) {
        for entry in rule.entries() {
            if noted[rule.head as usize].insert(entry) {
                depends_on[rule.head as usize].push(entry);
            }
        }
    }
    depends_on
}

/// All atoms that a walk along dependencies comes to, the start included.
pub(crate) fn walk(depends_on: &[Vec<u32>], start: u32) -> AtomSet {
    let mut visited = AtomSet::empty();
    visited.insert(start);
    let mut open = vec![start];
    while let Some(atom) = open.pop() {
        for &next in &depends_on[atom as usize] {
            if visited.insert(next) {
                open.push(next);
            }
        }
    }
    visited
}

/// Is there a cycle of dependencies with a negative step? Each negative step goes from a
/// head to an entry; it lies on a cycle if a walk from the entry comes back to the head.
pub fn has_loop_through_negation(program: &[Option<Page>]) -> bool {
    let depends_on = dependencies(program);
    let mut walked: Vec<Option<AtomSet>> = vec![None; ATOMS];
    held(program).any(|(_, rule)| {
        rule.negatives.iter().any(|&entry| {
            walked[entry as usize]
                .get_or_insert_with(|| walk(&depends_on, entry))
                .contains(rule.head)
        })
    })
}
