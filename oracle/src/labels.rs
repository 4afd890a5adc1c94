//! Labels: absent, out, or in with depth and supporting slot.

use crate::alternation;
use crate::atoms::AtomSet;
use crate::depth::depths;
use crate::limits::ATOMS;
use crate::rules::{occurring, unmuted, Page, Program};

#[derive(Clone, Copy, PartialEq, Eq, Debug)]
pub enum Label {
    Absent,
    Out,
    In { depth: u32, slot: u32 },
}

/// A program without a loop through a negation, with the labels that its unmuted rules give
/// its atoms. Those of muted rules occur too.
#[derive(Clone, Debug)]
pub struct Labelled {
    pub program: Program,
    /// By atom number.
    pub labels: Vec<Label>,
}

impl Labelled {
    /// The program with its labels. It must have no loop through a negation.
    pub fn of(program: Program) -> Labelled {
        Labelled::found(program).expect("a program without a loop through a negation")
    }

    /// The same of any program; `None` if no one model is found, which only a loop through a
    /// negation can cause.
    pub fn found(program: Program) -> Option<Labelled> {
        let m = alternation::model(&program)?;
        let labels = labels(&program, &m);
        Some(Labelled { program, labels })
    }

    pub fn label(&self, atom: u32) -> Label {
        self.labels[atom as usize]
    }

    pub fn is_in(&self, atom: u32) -> bool {
        matches!(self.label(atom), Label::In { .. })
    }

    /// Is this the slot that supports the atom?
    pub fn supports(&self, slot: u32, atom: u32) -> bool {
        matches!(self.label(atom), Label::In { slot: kept, .. } if kept == slot)
    }

    /// The atoms that occur, ascending, each with its label.
    pub fn occurring(&self) -> impl Iterator<Item = (u32, Label)> + '_ {
        (0..)
            .zip(self.labels.iter().copied())
            .filter(|&(_, label)| label != Label::Absent)
    }
}

/// The label of each atom, by atom number, where M is the admissible model.
fn labels(program: &[Option<Page>], m: &AtomSet) -> Vec<Label> {
    let depths = depths(program, m);
    let occurs = occurring(program);
    (0..ATOMS as u32)
        .map(|atom| match depths[atom as usize] {
            Some(depth) => Label::In {
                depth,
                slot: supporting_slot(program, m, &depths, atom),
            },
            None if occurs.contains(atom) => Label::Out,
            None => Label::Absent,
        })
        .collect()
}

/// The lowest slot among the unmuted rules valid in M with that head and all positive entries of
/// smaller depth. An atom of M has one: the last rule of its least derivation.
fn supporting_slot(
    program: &[Option<Page>],
    m: &AtomSet,
    depths: &[Option<u32>],
    atom: u32,
) -> u32 {
    let smaller = |entry: u32| depths[entry as usize] < depths[atom as usize];
    unmuted(program)
        .filter(|(_, rule)| rule.head == atom && rule.valid_in(m))
        .find(|(_, rule)| rule.positives.iter().all(|&entry| smaller(entry)))
        .expect("an atom in has a supporting rule")
        .0
}
