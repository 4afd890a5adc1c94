//! Depths: the least height of a derivation, found by searching for derivations.

use crate::atoms::AtomSet;
use crate::limits::ATOMS;
use crate::rules::{unmuted, Page};
use std::collections::BTreeSet;

/// What the search has learnt so far about the derivations of each atom.
struct Search<'a> {
    /// The positive lists of the valid unmuted rules with that head.
    bodies: &'a [Vec<&'a BTreeSet<u32>>],
    /// A number of levels that is known to be enough.
    enough: Vec<Option<u32>>,
    /// A number of levels that is known to be too few.
    too_few: Vec<u32>,
}

impl<'a> Search<'a> {
    /// Has the atom a derivation of at most that many levels? It has if all positive entries
    /// of one of its valid rules have a derivation of one level less.
    fn has_derivation(&mut self, atom: u32, levels: u32) -> bool {
        let place = atom as usize;
        if levels <= self.too_few[place] {
            return false;
        }
        if self.enough[place].is_some_and(|known| known <= levels) {
            return true;
        }
        let bodies = self.bodies;
        let found = bodies[place].iter().any(|positives| {
            positives
                .iter()
                .all(|&entry| self.has_derivation(entry, levels - 1))
        });
        if found {
            self.enough[place] = Some(levels);
        } else {
            self.too_few[place] = levels;
        }
        found
    }

    /// The least number of levels that is enough. A least derivation repeats no atom on a
    /// way down, so that it never needs more levels than there are atoms.
    fn depth(&mut self, atom: u32) -> Option<u32> {
        (1..=ATOMS as u32).find(|&levels| self.has_derivation(atom, levels))
    }
}

/// The depth of each atom of M, by atom number; `None` for the others.
pub fn depths(program: &[Option<Page>], m: &AtomSet) -> Vec<Option<u32>> {
    let mut bodies: Vec<Vec<&BTreeSet<u32>>> = vec![Vec::new(); ATOMS];
    for (_, rule) in unmuted(program).filter(|(_, rule)| rule.valid_in(m)) {
        bodies[rule.head as usize].push(&rule.positives);
    }
    let mut search = Search {
        bodies: &bodies,
        enough: vec![None; ATOMS],
        too_few: vec![0; ATOMS],
    };
    (0..ATOMS as u32)
        .map(|atom| {
            if m.contains(atom) {
                search.depth(atom)
            } else {
                None
            }
        })
        .collect()
}
