//! Negative cycles: numbers of the atoms against which no dependency goes show that there is none; the strata decide
//! where none are at hand.

use super::labels::turn;
use super::{head, negatives, number, positives, Numbers, Slot, STATE};
use yeqontur::raw::{ATOMS, SLOTS};

/// The least number that the rule lets its head have: no entry above it, each negative one below it.
fn needed(slot: &Slot, numbers: &Numbers) -> usize {
    let up = positives(slot).iter().map(|&x| number(numbers, x) as usize);
    let over = negatives(slot)
        .iter()
        .map(|&x| number(numbers, x) as usize + 1);
    up.max().unwrap_or(0).max(over.max().unwrap_or(0))
}

/// Each atom's stratum by rounds, every eighth of them downwards, or none where there is a negative cycle.
pub fn strata(slots: &[Slot; SLOTS]) -> Option<Numbers> {
    let mut of = [0; ATOMS];
    for round in 0..=SLOTS {
        let mut raised = false;
        for i in 0..SLOTS {
            let slot = &slots[turn(round % 8 == 7, i)];
            if slot[STATE] == 0 {
                continue;
            }
            let needed = needed(slot, &of);
            if needed > SLOTS {
                return None;
            }
            if needed as u16 > of[head(slot)] {
                of[head(slot)] = needed as u16;
                raised = true;
            }
        }
        if !raised {
            return Some(of);
        }
    }
    None
}

/// Atoms that depend on each other make a group; groups are numbered as they are left, those that others depend on
/// first (Pearce's algorithm).
struct Walk<'a> {
    slots: &'a [Slot; SLOTS],
    /// The slots of each head, linked: the last one, and for a slot the one before it.
    last: [Option<usize>; ATOMS],
    before: [Option<usize>; SLOTS],
    /// The earliest atom met, counted from 1, that each atom is known to lead to; 0 if it was not met.
    reach: Numbers,
    open: Vec<usize>,
    count: u16,
    group: u16,
    numbers: Numbers,
}

/// What is noted of an atom that has its number.
const NUMBERED: u16 = u16::MAX;

impl Walk<'_> {
    fn meet(&mut self, atom: usize) {
        let slots = self.slots;
        let own = self.count;
        self.reach[atom] = own;
        self.count += 1;
        let mut next = self.last[atom];
        while let Some(i) = next {
            for &x in positives(&slots[i]).iter().chain(negatives(&slots[i])) {
                if self.reach[x as usize] == 0 {
                    self.meet(x as usize);
                }
                self.reach[atom] = self.reach[atom].min(self.reach[x as usize]);
            }
            next = self.before[i];
        }
        if self.reach[atom] == own {
            self.close(atom, own);
        } else {
            self.open.push(atom);
        }
    }

    /// The root of a group gets its number, and so do the atoms that wait for it.
    fn close(&mut self, root: usize, own: u16) {
        while let Some(&atom) = self.open.last() {
            if self.reach[atom] < own {
                break;
            }
            self.open.pop();
            self.reach[atom] = NUMBERED;
            self.numbers[atom] = self.group;
        }
        self.reach[root] = NUMBERED;
        self.numbers[root] = self.group;
        self.group += 1;
    }
}

/// A number for each atom, that of its group.
fn order(slots: &[Slot; SLOTS]) -> Numbers {
    let mut walk = Walk {
        slots,
        last: [None; ATOMS],
        before: [None; SLOTS],
        reach: [0; ATOMS],
        open: Vec::new(),
        count: 1,
        group: 1,
        numbers: [0; ATOMS],
    };
    let held = || (0..SLOTS).filter(|&i| slots[i][STATE] != 0);
    for i in held() {
        walk.before[i] = walk.last[head(&slots[i])].replace(i);
    }
    for i in held() {
        if walk.reach[head(&slots[i])] == 0 {
            walk.meet(head(&slots[i]));
        }
    }
    walk.numbers
}

/// Does no dependency go against the numbers?
fn descends(slots: &[Slot; SLOTS], numbers: &Numbers) -> bool {
    let mut held = slots.iter().filter(|slot| slot[STATE] != 0);
    held.all(|slot| needed(slot, numbers) <= numbers[head(slot)] as usize)
}

pub fn acyclic(slots: &[Slot; SLOTS]) -> bool {
    descends(slots, &[0; ATOMS]) || descends(slots, &order(slots)) || strata(slots).is_some()
}
