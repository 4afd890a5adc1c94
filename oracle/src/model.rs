//! Admissible models, straight from the definitions: founded, closed, and every subset tried. They speak of the
//! unmuted rules.

use crate::atoms::AtomSet;
use crate::rules::{occurring, unmuted, Page, Rule};

/// Closed: the head of each rule valid in M is in M.
pub fn closed(program: &[Option<Page>], m: &AtomSet) -> bool {
    unmuted(program).all(|(_, rule)| !rule.valid_in(m) || m.contains(rule.head))
}

/// An order of M in which each atom is the head of a rule valid in M whose positive
/// entries all come earlier; `None` if there is no such order.
///
/// Taking any atom that can come next loses nothing: more atoms before a place never
/// stop an atom from standing there.
pub fn founding_order(program: &[Option<Page>], m: &AtomSet) -> Option<Vec<u32>> {
    let valid: Vec<&Rule> = unmuted(program)
        .map(|(_, rule)| rule)
        .filter(|rule| rule.valid_in(m))
        .collect();
    let mut earlier = AtomSet::empty();
    let mut order = Vec::new();
    let can_come_next = |rule: &Rule, earlier: &AtomSet| {
        m.contains(rule.head)
            && !earlier.contains(rule.head)
            && rule.positives.iter().all(|&atom| earlier.contains(atom))
    };
    while let Some(rule) = valid.iter().find(|rule| can_come_next(rule, &earlier)) {
        earlier.insert(rule.head);
        order.push(rule.head);
    }
    (earlier == *m).then_some(order)
}

/// Founded: such an order exists.
pub fn founded(program: &[Option<Page>], m: &AtomSet) -> bool {
    founding_order(program, m).is_some()
}

/// Admissible: founded and closed.
pub fn admissible(program: &[Option<Page>], m: &AtomSet) -> bool {
    closed(program, m) && founded(program, m)
}

/// All admissible models, by trying every subset of the occurring atoms. An atom that
/// doesn't occur heads no rule, so that no founded set has it; one that occurs in muted
/// rules alone is tried too. For small programs only.
pub fn admissible_models(program: &[Option<Page>]) -> Vec<AtomSet> {
    let atoms: Vec<u32> = occurring(program).ascending().collect();
    assert!(atoms.len() <= 20, "too many atoms to try every subset");
    (0u32..1 << atoms.len())
        .map(|chosen| {
            atoms
                .iter()
                .enumerate()
                .filter(|(i, _)| chosen >> i & 1 == 1)
                .map(|(_, &atom)| atom)
                .collect()
        })
        .filter(|m| admissible(program, m))
        .collect()
}
