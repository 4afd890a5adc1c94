//! Sets of atoms.

use crate::limits::ATOMS;
use std::fmt;

/// A set of atoms, each below the limit.
#[derive(Clone, PartialEq, Eq)]
pub struct AtomSet {
    members: [bool; ATOMS],
}

impl AtomSet {
    pub fn empty() -> AtomSet {
        AtomSet {
            members: [false; ATOMS],
        }
    }

    pub fn contains(&self, atom: u32) -> bool {
        self.members[atom as usize]
    }

    /// Puts the atom in and answers whether it was missing before.
    pub fn insert(&mut self, atom: u32) -> bool {
        !std::mem::replace(&mut self.members[atom as usize], true)
    }

    /// The members, ascending.
    pub fn ascending(&self) -> impl Iterator<Item = u32> + '_ {
        (0..ATOMS as u32).filter(|&atom| self.contains(atom))
    }
}

impl FromIterator<u32> for AtomSet {
    fn from_iter<I: IntoIterator<Item = u32>>(atoms: I) -> AtomSet {
        let mut set = AtomSet::empty();
        for atom in atoms {
            set.insert(atom);
        }
        set
    }
}

impl fmt::Debug for AtomSet {
    fn fmt(&self, out: &mut fmt::Formatter<'_>) -> fmt::Result {
        out.debug_set().entries(self.ascending()).finish()
    }
}
