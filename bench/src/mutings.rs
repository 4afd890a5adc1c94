//! One muting and one unmuting on each shape, question 15 included, through the raw calls, beside plain Rust.

use crate::clock::{in_turn, Pair};
use crate::{plain, shapes};
use std::hint::black_box;
use yeqontur::raw::{self, Table};

/// A shape, the slot of its last rule, and the shape with that rule muted.
struct Case {
    table: Table,
    slot: u32,
    muted: Table,
}

/// Sets the mark by the library.
fn marked(table: &Table, slot: u32, mark: u32) -> Table {
    let change = raw::mute(table, black_box(slot), black_box(mark));
    assert!(change.refused == 0);
    change.table
}

/// Sets the mark by plain Rust.
fn plain_marked(table: &Table, slot: u32, mark: u32) -> Table {
    let mut table = *table;
    plain::mute(&mut table, black_box(slot), black_box(mark)).expect("a held rule");
    table
}

impl Case {
    fn of(table: Table) -> Case {
        let slot = plain::last_held(&table) as u32;
        let muted = marked(&table, slot, 1);
        Case { table, slot, muted }
    }

    /// Both set the mark and take it away, and leave the same; the mark set already changes nothing.
    fn agrees(&self) -> bool {
        let Case { table, slot, muted } = self;
        let both = |before: &Table, mark, after: &Table| {
            marked(before, *slot, mark) == *after && plain_marked(before, *slot, mark) == *after
        };
        muted != table
            && both(table, 1, muted)
            && both(muted, 0, table)
            && both(table, 0, table)
            && both(muted, 1, muted)
    }

    /// The times of muting and of unmuting.
    fn timed(&self) -> (Pair, Pair) {
        let [mute, plain_mute, unmute, plain_unmute] = in_turn([
            &mut || {
                black_box(marked(&self.table, self.slot, 1));
            },
            &mut || {
                black_box(plain_marked(&self.table, self.slot, 1));
            },
            &mut || {
                black_box(marked(&self.muted, self.slot, 0));
            },
            &mut || {
                black_box(plain_marked(&self.muted, self.slot, 0));
            },
        ]);
        let pair = |proved, plain| Pair { proved, plain };
        (pair(mute, plain_mute), pair(unmute, plain_unmute))
    }
}

pub fn bench() {
    println!("One muting and one unmuting of the last rule through the raw calls: microseconds, and the ratio to");
    println!("plain Rust.");
    println!(
        "{:32}{:>9}{:>7}{:>9}{:>7}",
        "table", "mute", "ratio", "unmute", "ratio"
    );
    for (name, table) in shapes::all() {
        let case = Case::of(table);
        assert!(case.agrees(), "{name}");
        let (mute, unmute) = case.timed();
        println!("{name:32}{}{}", mute.shown(), unmute.shown());
    }
}

#[cfg(test)]
mod tests {
    use super::{shapes, Case};
    use crate::plain;
    use compare::boundary::from_slow;
    use oracle::calls::Call;
    use oracle::generate::again::pages_of;
    use oracle::generate::lists::follow_lists;
    use oracle::generate::muting_kinds::{Seen, BY_RULES, REFUSALS};
    use oracle::random::Random;
    use oracle::table::RawTable;
    use yeqontur::raw;

    #[test]
    fn muting_and_unmuting_leave_the_same_on_every_shape() {
        for (name, table) in shapes::all() {
            assert!(Case::of(table).agrees(), "{name}");
        }
    }

    /// A muting by plain Rust and by the library: the same answer, the same table after it. Other calls are not made.
    fn same(call: &Call, table: &RawTable) {
        let Call::Mute { slot, mark } = call else {
            return;
        };
        let mut ours = from_slow(table);
        let expected = raw::mute(&ours, *slot, *mark);
        let told = plain::mute(&mut ours, *slot, *mark);
        assert_eq!(told.err().unwrap_or(0), expected.refused, "{call:?}");
        assert!(ours == expected.table, "{call:?}: another table");
    }

    #[test]
    fn plain_rust_mutes_the_same() {
        let mut random = Random::seeded(1);
        let mut seen = Seen::default();
        follow_lists(&mut random, 300, 60, |table, call, refused| {
            same(call, table);
            seen.note(&pages_of(table), call, refused);
        });
        let refusals = [&REFUSALS[..], &[15]].concat();
        assert!(seen.is_enough(&refusals, &BY_RULES, 5), "{seen}");
    }
}
