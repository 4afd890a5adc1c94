//! One replacement on each shape, question 15 included, through the raw calls, beside plain Rust; and a removal and an
//! addition, which leave the same table.

use crate::clock::{in_turn, Pair};
use crate::{plain, shapes};
use oracle::random::Random;
use std::hint::black_box;
use yeqontur::raw::{self, Table, ENTRIES};

/// A shape, the slot of its last rule, and the rule that takes its place.
struct Case {
    table: Table,
    slot: u32,
    head: u32,
    positives: Vec<u32>,
    negatives: Vec<u32>,
}

/// The greatest atom that is the head of no rule: it is out, and a rule that negates it closes no loop.
fn headless(table: &Table) -> u32 {
    let heads: Vec<usize> = plain::slots(table).iter().map(plain::head).collect();
    let mut atoms = (0..=255).rev();
    let free = atoms.find(|&atom| !heads.contains(&(atom as usize)));
    free.expect("an atom without a rule")
}

impl Case {
    /// The new rule has an entry more than the old one, or where there is no room one in the place of the last. Its
    /// lists come shuffled, not as they are kept.
    fn of(table: Table) -> Case {
        let slot = plain::last_held(&table);
        let rule = &plain::slots(&table)[slot];
        let head = plain::head(rule) as u32;
        let list = |list: &[u16]| list.iter().map(|&atom| u32::from(atom)).collect::<Vec<_>>();
        let (mut positives, mut negatives) =
            (list(plain::positives(rule)), list(plain::negatives(rule)));
        if positives.len() + negatives.len() == ENTRIES && negatives.pop().is_none() {
            positives.pop();
        }
        negatives.push(headless(&table));
        let mut random = Random::seeded(1);
        random.shuffle(&mut positives);
        random.shuffle(&mut negatives);
        Case {
            slot: slot as u32,
            head,
            positives,
            negatives,
            table,
        }
    }

    fn replaced(&self) -> Table {
        let (slot, head) = (black_box(self.slot), self.head);
        let change = raw::replace(&self.table, slot, head, &self.positives, &self.negatives);
        assert!(change.refused == 0);
        change.table
    }

    fn plain_replaced(&self) -> Table {
        let mut table = self.table;
        let (slot, head) = (black_box(self.slot), self.head);
        plain::replace(&mut table, slot, head, &self.positives, &self.negatives)
            .expect("a replacement that is accepted");
        table
    }

    /// The slot that is freed is the lowest free one, so that the new rule takes it.
    fn removed_and_added(&self) -> Table {
        let removed = raw::remove(&self.table, black_box(self.slot));
        let added = raw::add(&removed.table, self.head, &self.positives, &self.negatives);
        assert!((removed.refused, added.refused) == (0, 0));
        added.table
    }

    fn plain_removed_and_added(&self) -> Table {
        let mut table = self.table;
        plain::remove(&mut table, black_box(self.slot)).expect("a held rule");
        plain::add(&mut table, self.head, &self.positives, &self.negatives)
            .expect("a rule that is accepted");
        table
    }

    /// The times of one call and of two.
    fn timed(&self) -> (Pair, Pair) {
        let [one, plain_one, two, plain_two] = in_turn([
            &mut || {
                black_box(self.replaced());
            },
            &mut || {
                black_box(self.plain_replaced());
            },
            &mut || {
                black_box(self.removed_and_added());
            },
            &mut || {
                black_box(self.plain_removed_and_added());
            },
        ]);
        let pair = |proved, plain| Pair { proved, plain };
        (pair(one, plain_one), pair(two, plain_two))
    }

    /// All four leave the same table, another than before.
    fn agrees(&self) -> bool {
        let after = self.replaced();
        after != self.table
            && after == self.plain_replaced()
            && after == self.removed_and_added()
            && after == self.plain_removed_and_added()
    }
}

pub fn bench() {
    println!("One replacement through the raw calls: microseconds, and the ratio to plain Rust; a removal and an");
    println!(
        "addition in its place, the same; and the part of their time that the replacement takes."
    );
    println!(
        "{:32}{:>9}{:>7}{:>11}{:>7}{:>7}",
        "table", "replace", "ratio", "two calls", "ratio", "part"
    );
    for (name, table) in shapes::all() {
        let case = Case::of(table);
        assert!(case.agrees(), "{name}");
        let (one, two) = case.timed();
        let part = one.proved / two.proved;
        println!("{name:32}{}  {}{part:7.2}", one.shown(), two.shown());
    }
}

#[cfg(test)]
mod tests {
    use super::{shapes, Case};
    use crate::plain;
    use compare::boundary::from_slow;
    use oracle::calls::Call;
    use oracle::generate::again::pages_of;
    use oracle::generate::lists::follow_lists;
    use oracle::generate::replacement_kinds::{Seen, REFUSALS};
    use oracle::random::Random;
    use oracle::table::RawTable;
    use yeqontur::raw;

    #[test]
    fn one_call_and_two_leave_the_same_on_every_shape() {
        for (name, table) in shapes::all() {
            assert!(Case::of(table).agrees(), "{name}");
        }
    }

    /// A replacement by plain Rust and by the library: the same answer, the same table after it. Other calls are not
    /// made.
    fn same(call: &Call, table: &RawTable) {
        let Call::Replace {
            slot,
            head,
            positives,
            negatives,
        } = call
        else {
            return;
        };
        let mut ours = from_slow(table);
        let expected = raw::replace(&ours, *slot, *head, positives, negatives);
        let told = plain::replace(&mut ours, *slot, *head, positives, negatives);
        assert_eq!(told.err().unwrap_or(0), expected.refused, "{call:?}");
        assert!(ours == expected.table, "{call:?}: another table");
    }

    #[test]
    fn plain_rust_replaces_the_same() {
        let mut random = Random::seeded(1);
        let mut seen = Seen::default();
        follow_lists(&mut random, 200, 40, |table, call, refused| {
            same(call, table);
            seen.note(&pages_of(table), call, refused);
        });
        let refusals = [&REFUSALS[..], &[15]].concat();
        assert!(seen.is_enough(&refusals, 10), "{seen}");
    }
}
