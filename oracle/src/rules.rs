//! Rules, and programs: which rule each slot holds, muted or not.

use crate::atoms::AtomSet;
use std::collections::BTreeSet;

/// A head and two sets of atoms: two rules are the same if heads are equal and each list holds
/// the same atoms. A set is read ascending, and that is the order in which a list is kept.
#[derive(Clone, PartialEq, Eq, Hash, Debug)]
pub struct Rule {
    pub head: u32,
    pub positives: BTreeSet<u32>,
    pub negatives: BTreeSet<u32>,
}

impl Rule {
    /// The rule of a head and two lists in any order.
    pub fn of(head: u32, positives: &[u32], negatives: &[u32]) -> Rule {
        Rule {
            head,
            positives: positives.iter().copied().collect(),
            negatives: negatives.iter().copied().collect(),
        }
    }

    /// The entries as they are kept, the positive list read first.
    pub fn entries(&self) -> impl Iterator<Item = u32> + '_ {
        self.positives.iter().chain(&self.negatives).copied()
    }

    /// Valid in M: every positive entry is in M and no negative entry is.
    pub fn valid_in(&self, m: &AtomSet) -> bool {
        self.positives.iter().all(|&atom| m.contains(atom))
            && !self.negatives.iter().any(|&atom| m.contains(atom))
    }
}

/// What a slot of the table or a page of the book holds: a rule and its mark, muted or not. Two rules are the same
/// whatever their marks.
#[derive(Clone, PartialEq, Eq, Hash, Debug)]
pub struct Page {
    pub rule: Rule,
    pub muted: bool,
}

impl Page {
    /// As added and replaced rules start.
    pub fn unmuted(rule: Rule) -> Page {
        Page { rule, muted: false }
    }

    pub fn muted(rule: Rule) -> Page {
        Page { rule, muted: true }
    }
}

/// What each slot holds, from slot 0 on; `None` is a free slot.
pub type Program = Vec<Option<Page>>;

/// What is held, with its slot, ascending.
fn pages(program: &[Option<Page>]) -> impl Iterator<Item = (u32, &Page)> {
    let slots = (0..).zip(program);
    slots.filter_map(|(slot, holds)| holds.as_ref().map(|page| (slot, page)))
}

/// All held rules with their slots, ascending, muted or not. Of these speak what occurs, justifications, consequences,
/// sameness, loops and layers.
pub fn held(program: &[Option<Page>]) -> impl Iterator<Item = (u32, &Rule)> {
    pages(program).map(|(slot, page)| (slot, &page.rule))
}

/// Those of them that are not muted. Of these alone speak the model, derivations, depth, support, spoilers,
/// repercussions and reasons.
pub fn unmuted(program: &[Option<Page>]) -> impl Iterator<Item = (u32, &Rule)> {
    let speaking = pages(program).filter(|(_, page)| !page.muted);
    speaking.map(|(slot, page)| (slot, &page.rule))
}

/// The rules that are held and muted.
pub fn muted(program: &[Option<Page>]) -> impl Iterator<Item = (u32, &Rule)> {
    let silent = pages(program).filter(|(_, page)| page.muted);
    silent.map(|(slot, page)| (slot, &page.rule))
}

/// Is the same rule held, muted or not?
pub fn holds(program: &[Option<Page>], rule: &Rule) -> bool {
    held(program).any(|(_, other)| other == rule)
}

/// The atoms that occur: every head and every entry.
pub fn occurring(program: &[Option<Page>]) -> AtomSet {
    held(program)
        .flat_map(|(_, rule)| std::iter::once(rule.head).chain(rule.entries()))
        .collect()
}
