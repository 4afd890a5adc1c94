//! What stands in relation to an atom: spoilers, supports, repercussions, justifications,
//! consequences and reasons.

use crate::atoms::AtomSet;
use crate::labels::{Label, Labelled};
use crate::limits::ATOMS;
use crate::rules::{held, unmuted, Rule};
use std::collections::BTreeSet;

/// The list that an entry stands in.
#[derive(Clone, Copy, PartialEq, Eq, Debug)]
pub enum Side {
    Positive,
    Negative,
}

/// The entry that spoils a rule: its atom, its list, and its place in that list as it is kept,
/// from 0.
#[derive(Clone, Copy, PartialEq, Eq, Debug)]
pub struct Spoiler {
    pub side: Side,
    pub place: u32,
    pub atom: u32,
}

/// The first spoiling entry, the positive list read first and each list as it is kept: a
/// positive entry spoils if it is not in, a negative one if it is. `None` for a valid rule.
/// Whether the rule is muted is the caller's question.
pub fn spoiler(labelled: &Labelled, rule: &Rule) -> Option<Spoiler> {
    first(Side::Positive, &rule.positives, |atom| {
        !labelled.is_in(atom)
    })
    .or_else(|| first(Side::Negative, &rule.negatives, |atom| labelled.is_in(atom)))
}

/// The first entry of a list that spoils.
fn first(side: Side, list: &BTreeSet<u32>, spoils: impl Fn(u32) -> bool) -> Option<Spoiler> {
    let (place, &atom) = (0..).zip(list).find(|&(_, &atom)| spoils(atom))?;
    Some(Spoiler { side, place, atom })
}

/// All entries of the supporting rule of an in atom; the spoilers of the unmuted rules of an
/// out atom; nothing for an absent one. A set of atoms: list and place don't matter.
pub fn support(labelled: &Labelled, atom: u32) -> AtomSet {
    let rules_of_atom = unmuted(&labelled.program).filter(|(_, rule)| rule.head == atom);
    match labelled.label(atom) {
        Label::Absent => AtomSet::empty(),
        Label::In { slot, .. } => rules_of_atom
            .filter(|&(place, _)| place == slot)
            .flat_map(|(_, rule)| rule.entries())
            .collect(),
        Label::Out => rules_of_atom
            .filter_map(|(_, rule)| spoiler(labelled, rule))
            .map(|spoiler| spoiler.atom)
            .collect(),
    }
}

/// The atoms affected by each atom, by atom number: those that have it in their support.
fn affected(labelled: &Labelled) -> Vec<Vec<u32>> {
    let mut affected = vec![Vec::new(); ATOMS];
    for (atom, _) in labelled.occurring() {
        for supporter in support(labelled, atom).ascending() {
            affected[supporter as usize].push(atom);
        }
    }
    affected
}

/// All atoms reached from the atom by one or more steps to an affected one, ascending.
pub fn repercussions(labelled: &Labelled, atom: u32) -> Vec<u32> {
    let affected = affected(labelled);
    let mut reached = AtomSet::empty();
    let mut open = vec![atom];
    while let Some(from) = open.pop() {
        for &next in &affected[from as usize] {
            if reached.insert(next) {
                open.push(next);
            }
        }
    }
    reached.ascending().collect()
}

/// The slots of the rules with that head, muted or not, ascending.
pub fn justifications(labelled: &Labelled, atom: u32) -> Vec<u32> {
    held(&labelled.program)
        .filter(|(_, rule)| rule.head == atom)
        .map(|(slot, _)| slot)
        .collect()
}

/// The heads of the rules with the atom as an entry, muted or not, ascending, without repeats.
pub fn consequences(labelled: &Labelled, atom: u32) -> Vec<u32> {
    let mentions = |rule: &Rule| rule.entries().any(|entry| entry == atom);
    let heads: AtomSet = held(&labelled.program)
        .filter(|(_, rule)| mentions(rule))
        .map(|(_, rule)| rule.head)
        .collect();
    heads.ascending().collect()
}

/// The supporting slots of all atoms reached from the atom by going to the positive entries
/// of supporting rules, by depth and then by atom number; `None` if the atom is not in.
pub fn reason(labelled: &Labelled, atom: u32) -> Option<Vec<u32>> {
    let mut reached = AtomSet::empty();
    let mut open = vec![atom];
    let mut found: Vec<(u32, u32, u32)> = Vec::new();
    while let Some(next) = open.pop() {
        let Label::In { depth, slot } = labelled.label(next) else {
            return None;
        };
        if reached.insert(next) {
            found.push((depth, next, slot));
            let supporting = labelled.program[slot as usize]
                .as_ref()
                .expect("a supporting slot holds a rule");
            open.extend(&supporting.rule.positives);
        }
    }
    found.sort_unstable();
    Some(found.into_iter().map(|(_, _, slot)| slot).collect())
}
