//! One addition, one removal, one label and all labels on each shape, question 15 included, through the Rust crate that
//! clients use, beside plain Rust; and clingo on the same rules.

use crate::clock::Pair;
use crate::{clingo, plain, shapes};
use oracle::random::Random;
use std::hint::black_box;
use yeqontur::{raw, Rule, Table};

/// A shape without its last rule, that rule, and the whole.
struct Case {
    less: Table,
    rule: Rule,
    full: Table,
}

impl Case {
    fn of(fields: &raw::Table) -> Case {
        let full = Table::try_from(*fields).expect("a sound shape");
        let rule = full.rules().last().expect("a rule");
        let mut less = full.clone();
        less.remove(rule.slot).expect("a held rule");
        Case { less, rule, full }
    }

    /// The lists come shuffled, not as they are kept.
    fn add(&self) -> Pair {
        let mut random = Random::seeded(1);
        let mut shuffled = |list: &[u32]| random.sample(list, list.len());
        let (p, n) = (
            shuffled(&self.rule.positives),
            shuffled(&self.rule.negatives),
        );
        let head = self.rule.head;
        let proved = || {
            let mut table = self.less.clone();
            table.add(head, &p, &n).expect("a rule that is accepted");
            table
        };
        let plain = || {
            let mut table = *self.less.as_raw();
            plain::add(&mut table, head, &p, &n).expect("the same");
            table
        };
        assert!(proved() == self.full && plain() == *self.full.as_raw());
        Pair::timed(proved, plain)
    }

    fn remove(&self) -> Pair {
        let proved = || {
            let mut table = self.full.clone();
            table.remove(self.rule.slot).expect("a held rule");
            table
        };
        let plain = || {
            let mut table = *self.full.as_raw();
            plain::remove(&mut table, self.rule.slot).expect("the same");
            table
        };
        assert!(proved() == self.less && plain() == *self.less.as_raw());
        Pair::timed(proved, plain)
    }

    fn label(&self) -> Pair {
        let head = self.rule.head;
        Pair::timed(
            || self.full.label(black_box(head)),
            || plain::label(self.full.as_raw(), black_box(head)),
        )
    }

    /// All labels, into a lent buffer.
    fn labels(&self) -> Pair {
        let (mut ours, mut others) = ([0; raw::LABEL_NUMBERS], [0; raw::LABEL_NUMBERS]);
        let table = self.full.as_raw();
        let count = raw::labels(table, &mut ours).count;
        assert!(plain::all_labels(table, &mut others) == Ok(count) && ours == others);
        Pair::timed(
            || raw::labels(black_box(table), black_box(&mut ours)),
            || plain::all_labels(black_box(table), black_box(&mut others)),
        )
    }
}

/// clingo's time, how many additions fit in it, and how many in what it takes beyond its start.
fn other(table: &Table, start: Option<f64>, addition: f64) -> String {
    let times = start.zip(clingo::time(table));
    times.map_or(format!("{:>10}", "none"), |(start, time)| {
        let (whole, less) = (time / addition, (time - start) / addition);
        format!("{time:10.0}{whole:7.0}{less:7.0}")
    })
}

pub fn bench() {
    println!("Calls through the Rust crate: microseconds, and the ratio to plain Rust. clingo (none: not installed):");
    println!("microseconds of a run, its ratio to an addition, and the same less its run without a rule.");
    println!(
        "{:32}{:>9}{:>7}{:>9}{:>7}{:>9}{:>7}{:>9}{:>7}{:>10}{:>7}{:>7}",
        "table",
        "add",
        "ratio",
        "remove",
        "ratio",
        "label",
        "ratio",
        "labels",
        "ratio",
        "clingo",
        "ratio",
        "less"
    );
    let start = clingo::time(&Table::new());
    for (name, fields) in shapes::all() {
        let case = Case::of(&fields);
        let add = case.add();
        let calls = [add, case.remove(), case.label(), case.labels()];
        let other = other(&case.full, start, add.proved);
        println!("{name:32}{}{other}", calls.map(Pair::shown).concat());
    }
}

#[cfg(test)]
mod tests {
    use crate::plain;
    use oracle::calls::Call;
    use oracle::generate::calls::Calls;
    use oracle::random::Random;
    use oracle::table::RawTable;
    use yeqontur::{raw, Table};

    /// The same call on both sides: the same answer, and the same table after it.
    fn same(call: &Call, table: &mut Table) {
        let mut other = *table.as_raw();
        match call {
            Call::Add {
                head,
                positives,
                negatives,
            } => {
                let told = plain::add(&mut other, *head, positives, negatives);
                let expected = table.add(*head, positives, negatives);
                assert_eq!(told, expected.map_err(|r| r.number()), "{call:?}");
            }
            Call::Remove { slot } => {
                let told = plain::remove(&mut other, *slot);
                let expected = table.remove(*slot);
                assert_eq!(told, expected.map_err(|r| r.number()), "{call:?}");
            }
            Call::Label { atom } => {
                let told =
                    plain::label(&other, *atom).unwrap_or_else(|refused| [refused as u16; 3]);
                let expected = raw::label(table.as_raw(), *atom);
                let numbers = match expected.refused {
                    0 => [expected.state, expected.depth, expected.slot],
                    refused => [refused; 3],
                };
                assert_eq!(told.map(u32::from), numbers, "{call:?}");
            }
            Call::Labels => {
                for room in [raw::LABEL_NUMBERS, 100, 7] {
                    let (mut ours, mut others) = (vec![9; room], vec![9; room]);
                    let expected = raw::labels(table.as_raw(), &mut ours);
                    let told = plain::all_labels(&other, &mut others);
                    let told = told.map_or_else(|refusal| refusal, |count| (0, count));
                    assert_eq!(told, (expected.refused, expected.count), "room {room}");
                    assert_eq!(ours, others);
                }
            }
            Call::Mute { slot, mark } => {
                let told = plain::mute(&mut other, *slot, *mark);
                let expected = raw::mute(table.as_raw(), *slot, *mark);
                assert_eq!(told.err().unwrap_or(0), expected.refused, "{call:?}");
                *table = Table::try_from(expected.table).expect("a sound table");
            }
            _ => {}
        }
        assert!(other == *table.as_raw(), "{call:?}: another table");
    }

    #[test]
    fn plain_rust_does_the_same_work() {
        let mut random = Random::seeded(1);
        for round in 0..60 {
            let mut table = Table::new();
            let atoms = [4, 8, 20, 60, 256][round % 5];
            let mut calls = Calls::on(&RawTable::empty(), atoms, 80);
            for _ in 0..200 {
                same(&calls.call(&mut random), &mut table);
            }
        }
    }
}
