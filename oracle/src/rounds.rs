//! Rounds over the slots, lowest layer first: how many each layer has, found from the moments at which atoms are found.
//! Layers go by all rules; only the unmuted ones can add their head.
//!
//! A moment is a round and a slot. A round goes through the slots in order, so moments pass round by round, and within
//! a round slot by slot. When a layer's first round starts, all lower layers are done. Of the rules whose head has the
//! layer, those that are not valid in the model never add their head: one has a negative entry that is in, and as that
//! is of a lower layer it was found before; or one has a positive entry that is never found. A valid rule adds its head
//! at the first moment of its slot at which its positive entries of the layer itself have been found, unless another
//! rule did so earlier. Without such an entry that is in round 1. Else it is in the round in which the last of them was
//! found, where the rule's slot comes after the slot that found it, and in the next round where it came before.
//!
//! So the first atom of a later round waited for one that was found in the round just before, and no round up to the
//! last one that finds an atom is without one. The layer ends with the round after that: the first one that adds none.

use crate::atoms::AtomSet;
use crate::limits::ATOMS;
use crate::rules::{unmuted, Page};
use std::cmp::Reverse;
use std::collections::BinaryHeap;

/// A round from 1, and a slot.
type Moment = (u32, u32);

/// An unmuted rule that is valid in the model.
struct Valid {
    slot: u32,
    head: u32,
    /// How many positive entries of its head's layer have not been found yet.
    missing: usize,
}

impl Valid {
    /// The first moment of the rule's slot after that one, at which an entry that it waits for was found: by another
    /// rule, so in another slot.
    fn after(&self, (round, slot): Moment) -> Moment {
        if self.slot > slot {
            (round, self.slot)
        } else {
            (round + 1, self.slot)
        }
    }
}

/// The unmuted rules that are valid in M, and for each atom the places of those that wait for it.
fn valid_rules(
    program: &[Option<Page>],
    layers: &[u32],
    m: &AtomSet,
) -> (Vec<Valid>, Vec<Vec<usize>>) {
    let mut rules = Vec::new();
    let mut waiting = vec![Vec::new(); ATOMS];
    for (slot, rule) in unmuted(program).filter(|(_, rule)| rule.valid_in(m)) {
        let layer = layers[rule.head as usize];
        let positives = rule.positives.iter().map(|&entry| entry as usize);
        let mut missing = 0;
        for entry in positives.filter(|&entry| layers[entry] == layer) {
            waiting[entry].push(rules.len());
            missing += 1;
        }
        let head = rule.head;
        rules.push(Valid {
            slot,
            head,
            missing,
        });
    }
    (rules, waiting)
}

/// The round in which each atom of M is found, by atom number; 0 for the others. No layer waits for a moment of another
/// one, so that the moments of all layers can be taken together.
fn found_in(program: &[Option<Page>], layers: &[u32], m: &AtomSet) -> Vec<u32> {
    let (mut rules, waiting) = valid_rules(program, layers, m);
    let mut found = vec![0; ATOMS];
    let mut open: BinaryHeap<Reverse<(Moment, usize)>> = BinaryHeap::new();
    let rules_at = rules.iter().enumerate();
    for (place, rule) in rules_at.filter(|(_, rule)| rule.missing == 0) {
        open.push(Reverse(((1, rule.slot), place)));
    }
    while let Some(Reverse((moment, place))) = open.pop() {
        let head = rules[place].head as usize;
        if found[head] > 0 {
            continue;
        }
        found[head] = moment.0;
        for &waits in &waiting[head] {
            let rule = &mut rules[waits];
            rule.missing -= 1;
            if rule.missing == 0 {
                open.push(Reverse((rule.after(moment), waits)));
            }
        }
    }
    found
}

/// How many rounds each layer has, lowest first, its last one, which adds none, counted. M is the admissible model of
/// the program, and the layers are those of `strata`, by atom number.
pub fn rounds(program: &[Option<Page>], layers: &[u32], m: &AtomSet) -> Vec<u32> {
    let top = layers.iter().max().expect("an atom");
    let mut rounds = vec![1; *top as usize + 1];
    for (&layer, round) in layers.iter().zip(found_in(program, layers, m)) {
        let of_layer = &mut rounds[layer as usize];
        *of_layer = (round + 1).max(*of_layer);
    }
    rounds
}
