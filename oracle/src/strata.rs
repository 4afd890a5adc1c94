//! Layers: an atom's layer is the most negative steps on a path of dependencies from it. Muted rules make dependencies
//! as the others do.
//!
//! S(0) is the set of all atoms. S(k + 1) is the set of those from which a walk along dependencies comes to the head of
//! a rule with a negative entry in S(k). So S(k) holds the atoms that have a path with k negative steps or more: the
//! walk goes up to the path's first negative step, and k - 1 are left behind it. An atom's layer is the last k with the
//! atom in S(k). On a path with the most negative steps, the atom behind the first of them has the layer just below, so
//! no layer below the top one is empty.

use crate::atoms::AtomSet;
use crate::limits::ATOMS;
use crate::loops::{dependencies, walk};
use crate::rules::{held, Page};

/// S(k + 1), where S(k) is given and, for each atom, what a walk from it comes to.
fn one_step_more(program: &[Option<Page>], walks: &[AtomSet], s: &AtomSet) -> AtomSet {
    let heads: AtomSet = held(program)
        .filter(|(_, rule)| rule.negatives.iter().any(|&entry| s.contains(entry)))
        .map(|(_, rule)| rule.head)
        .collect();
    let heads: Vec<u32> = heads.ascending().collect();
    (0..ATOMS as u32)
        .filter(|&atom| {
            heads
                .iter()
                .any(|&head| walks[atom as usize].contains(head))
        })
        .collect()
}

/// The layer of each atom, by atom number; an atom that doesn't occur has no path and layer 0. The program must have no
/// loop through a negation: with one, S(k) would at some k stay as it is for good.
pub fn layers(program: &[Option<Page>]) -> Vec<u32> {
    let depends_on = dependencies(program);
    let walks: Vec<AtomSet> = (0..ATOMS as u32)
        .map(|atom| walk(&depends_on, atom))
        .collect();
    let mut layers = vec![0; ATOMS];
    let mut s: AtomSet = (0..ATOMS as u32).collect();
    for k in 1.. {
        let next = one_step_more(program, &walks, &s);
        if next == AtomSet::empty() {
            break;
        }
        assert!(next != s, "a program without a loop through a negation");
        for atom in next.ascending() {
            layers[atom as usize] = k;
        }
        s = next;
    }
    layers
}
