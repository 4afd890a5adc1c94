//! Question 15 (specification 3.4): what the slots keep as a certificate.

use super::labels::spoiling;
use super::loops::acyclic;
use super::{entries, head, level, negatives, positives, slots};
use super::{Flags, Numbers, Slot, DEPTH, HEAD, NEGATIVES, POSITIVES, SPOILER, STATE};
use yeqontur::raw::{Table, ATOMS, ENTRIES, SLOTS};

fn ascends(list: &[u16]) -> bool {
    list.windows(2).all(|pair| pair[0] < pair[1])
}

/// Clean, and where the slot holds a rule, muted or not, questions 1 to 4 and ascending lists. A list that ascends has
/// no repeat.
pub fn well_formed(slot: &Slot) -> bool {
    let end = slot[POSITIVES] as usize + slot[NEGATIVES] as usize;
    if slot[STATE] > 2 || end > ENTRIES || entries(slot)[end..].iter().any(|&x| x != 0) {
        return false;
    }
    if slot[STATE] == 0 {
        return end == 0 && slot[HEAD] == 0;
    }
    head(slot) < ATOMS
        && entries(slot)[..end].iter().all(|&x| (x as usize) < ATOMS)
        && ascends(positives(slot))
        && ascends(negatives(slot))
}

/// Entry for entry: rules with ascending lists are the same exactly if they are equal.
pub fn equal(a: &Slot, b: &Slot) -> bool {
    a[HEAD] == b[HEAD] && positives(a) == positives(b) && negatives(a) == negatives(b)
}

/// A number that equal rules share.
fn key(slot: &Slot) -> usize {
    let entries = positives(slot).iter().chain(negatives(slot));
    let sum = entries.fold(head(slot), |k, &x| (8121 * k + x as usize) % 65536);
    8121 * sum % 65536 / 256
}

/// Only rules of one key are compared: they are linked by the slot before.
pub fn no_two_equal(slots: &[Slot; SLOTS]) -> bool {
    let mut last = [0; 256];
    let mut before = [0; SLOTS];
    for (i, slot) in slots
        .iter()
        .enumerate()
        .filter(|(_, slot)| slot[STATE] != 0)
    {
        let key = key(slot);
        let start = last[key];
        let mut k = start;
        while k > 0 {
            if equal(slot, &slots[k - 1]) {
                return false;
            }
            k = before[k - 1];
        }
        before[i] = start;
        last[key] = i + 1;
    }
    true
}

/// The in atoms and their depths, as the slots keep them.
pub fn kept(slots: &[Slot; SLOTS]) -> (Flags, Numbers) {
    let mut deep = [0; ATOMS];
    for slot in slots
        .iter()
        .filter(|slot| slot[STATE] != 0 && slot[DEPTH] != 0)
    {
        if deep[head(slot)] == 0 {
            deep[head(slot)] = slot[DEPTH];
        }
    }
    (deep.map(|depth| depth != 0), deep)
}

/// Does the slot keep what is due, by these in atoms and depths; and if it is unmuted and valid, is its head in, and not
/// deeper than the rule's level?
fn confirmed(slot: &Slot, flags: &Flags, deep: &Numbers, given: &mut Flags) -> bool {
    if slot[STATE] != 1 {
        return slot[DEPTH] == 0 && slot[SPOILER] == 0;
    }
    let place = spoiling(slot, flags);
    if slot[SPOILER] != place {
        return false;
    }
    if place != 0 {
        return slot[DEPTH] == 0;
    }
    let (depth, level) = (deep[head(slot)], level(slot, deep));
    let gives = depth == level && !given[head(slot)];
    given[head(slot)] |= gives;
    slot[DEPTH] == if gives { depth } else { 0 } && flags[head(slot)] && depth <= level
}

fn certified(slots: &[Slot; SLOTS]) -> bool {
    let (flags, deep) = kept(slots);
    let mut given = [false; ATOMS];
    slots
        .iter()
        .all(|slot| confirmed(slot, &flags, &deep, &mut given))
}

/// Question 15.
pub fn sound(table: &Table) -> bool {
    let slots = slots(table);
    slots.iter().all(well_formed) && certified(slots) && no_two_equal(slots) && acyclic(slots)
}
