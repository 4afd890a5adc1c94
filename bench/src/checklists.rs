//! The calls of a checklist of 60 files through the raw calls of the Rust crate, beside plain Rust.

use crate::clock::Pair;
use crate::plain::checklist as plain;
use std::hint::black_box;
use yeqontur::raw::{self, Accepted, Table};

const FILES: u32 = 60;

/// A checklist of which the files up to the last have been sent, by both: they get the same table.
fn sent_up_to(last: u32) -> Table {
    let table = proved_list(last);
    assert!(table == plain_list(last));
    table
}

fn proved_list(last: u32) -> Table {
    let mut table = raw::checklist_open(black_box(FILES)).table;
    for file in 1..=last {
        let sent = raw::checklist_sent(&table, file);
        assert!(sent.refused == 0);
        table = sent.table;
    }
    table
}

fn plain_list(last: u32) -> Table {
    let mut table = plain::open(black_box(FILES)).expect("60 files");
    for file in 1..=last {
        plain::file_sent(&mut table, file).expect("an unsent file");
    }
    table
}

/// A call on the last file, which both accept, and which leaves them the same table.
fn on_last(
    table: &Table,
    proved: fn(&Table, u32) -> Accepted,
    plain: fn(&mut Table, u32) -> Result<(), u32>,
) -> (Pair, Table) {
    let with_plain = || {
        let mut table = *table;
        plain(&mut table, black_box(FILES)).expect("an accepted call");
        table
    };
    let after = proved(table, FILES);
    assert!(after.refused == 0 && after.table == with_plain());
    let pair = Pair::timed(|| proved(table, black_box(FILES)), with_plain);
    (pair, after.table)
}

fn missing(table: &Table) -> Pair {
    let (mut ours, mut others) = ([0; FILES as usize], [0; FILES as usize]);
    let count = raw::checklist_missing(table, &mut ours).count;
    assert!(plain::missing(table, &mut others) == Ok(count) && ours == others);
    Pair::timed(
        || raw::checklist_missing(black_box(table), black_box(&mut ours)),
        || plain::missing(black_box(table), black_box(&mut others)),
    )
}

fn complete(table: &Table) -> Pair {
    let told = raw::checklist_complete(table).complete;
    assert!(plain::complete(table) == Ok(told == 1));
    Pair::timed(
        || raw::checklist_complete(black_box(table)),
        || plain::complete(black_box(table)),
    )
}

pub fn bench() {
    println!("A checklist of 60 files through the raw calls of the Rust crate: microseconds, those of plain Rust, and");
    println!("the ratio. The list of files is asked with none sent, whether all is complete with all sent.");
    println!("{:44}{:>9}{:>9}{:>7}", "calls", "proved", "plain", "ratio");
    let (none, most) = (sent_up_to(0), sent_up_to(FILES - 1));
    let (sent, all) = on_last(&most, raw::checklist_sent, plain::file_sent);
    let (skipped, one_skip) = on_last(&all, raw::checklist_skipped, plain::file_skipped);
    let (withdrawn, _) = on_last(&one_skip, raw::checklist_withdraw, plain::skip_withdrawn);
    let rows = [
        ("open", Pair::timed(|| proved_list(0), || plain_list(0))),
        (
            "open, send all",
            Pair::timed(|| proved_list(FILES), || plain_list(FILES)),
        ),
        ("file sent, the last", sent),
        ("file skipped", skipped),
        ("skip withdrawn", withdrawn),
        ("missing", missing(&none)),
        ("complete", complete(&all)),
    ];
    for (name, pair) in rows {
        let name = format!("checklist of 60 files: {name}");
        println!("{name:44}{}", pair.shown_beside());
    }
}

#[cfg(test)]
mod tests {
    use super::{sent_up_to, FILES};
    use crate::plain::checklist;
    use compare::boundary::from_slow;
    use oracle::calls::Call;
    use oracle::generate::checklists::Checklists;
    use oracle::generate::damage::{damaged, FIELDS};
    use oracle::generate::mixed_table;
    use oracle::random::Random;
    use std::collections::BTreeMap;
    use yeqontur::raw::{self, Table};

    /// What stands in a buffer before, so that an entry that was not written is seen.
    const BEFORE: u32 = 1_000_000;

    /// The calls that change a table: the refusal, 0 where there is none, and the table; `None` for the others.
    fn told(call: &Call, table: &Table) -> Option<(u32, Table)> {
        let mut after = *table;
        let answer = match call {
            Call::Open { files } => match checklist::open(*files) {
                Ok(table) => {
                    after = table;
                    Ok(())
                }
                Err(number) => {
                    after = raw::empty();
                    Err(number)
                }
            },
            Call::FileSent { file } => checklist::file_sent(&mut after, *file),
            Call::FileSkipped { file } => checklist::file_skipped(&mut after, *file),
            Call::SkipWithdrawn { file } => checklist::skip_withdrawn(&mut after, *file),
            _ => return None,
        };
        Some((answer.err().unwrap_or(0), after))
    }

    /// The same by the proved library, which makes the other changes too.
    fn expected(call: &Call, table: &Table) -> (u32, Table) {
        let change = match call {
            Call::Open { files } => raw::checklist_open(*files),
            Call::FileSent { file } => raw::checklist_sent(table, *file),
            Call::FileSkipped { file } => raw::checklist_skipped(table, *file),
            Call::SkipWithdrawn { file } => raw::checklist_withdraw(table, *file),
            Call::Add {
                head,
                positives,
                negatives,
            } => return (0, raw::add(table, *head, positives, negatives).table),
            Call::Remove { slot } => return (0, raw::remove(table, *slot).table),
            Call::Replace {
                slot,
                head,
                positives,
                negatives,
            } => {
                return (
                    0,
                    raw::replace(table, *slot, *head, positives, negatives).table,
                )
            }
            Call::Mute { slot, mark } => return (0, raw::mute(table, *slot, *mark).table),
            Call::Load { bytes } => return (0, raw::load(bytes).table),
            _ => unreachable!("a call that changes no table"),
        };
        (change.refused, change.table)
    }

    /// Both tell which files are missing, with that much room, and whether all is complete. Answers both refusals.
    fn asked(table: &Table, room: usize) -> [u32; 2] {
        let (mut ours, mut others) = (vec![BEFORE; room], vec![BEFORE; room]);
        let written = raw::checklist_missing(table, &mut ours);
        let told = checklist::missing(table, &mut others);
        let (refused, count) = told.map_or_else(|refusal| refusal, |count| (0, count));
        assert_eq!((refused, count), (written.refused, written.count));
        assert_eq!(ours, others);
        let whole = raw::checklist_complete(table);
        let (number, complete) = match checklist::complete(table) {
            Ok(complete) => (0, u32::from(complete)),
            Err(number) => (number, 0),
        };
        assert_eq!((number, complete), (whole.refused, whole.complete));
        [refused, number]
    }

    /// The same call and questions on both sides. Answers the table after, and counts the refusals.
    fn same(call: &Call, table: &Table, room: usize, met: &mut BTreeMap<u32, usize>) -> Table {
        let (refused, after) = expected(call, table);
        if let Some(told) = told(call, table) {
            assert_eq!(told.0, refused, "{call:?}");
            assert!(told.1 == after, "{call:?}: another table");
        }
        for number in asked(&after, room).into_iter().chain([refused]) {
            *met.entry(number).or_default() += 1;
        }
        after
    }

    #[test]
    fn plain_rust_does_the_same_work_on_a_checklist() {
        let mut random = Random::seeded(1);
        let mut met = BTreeMap::new();
        for _ in 0..100 {
            let mut drawn = Checklists::start();
            let mut table = raw::empty();
            for _ in 0..100 {
                let call = drawn.change(&mut random);
                let room = *random.pick(&[0, 1, 2, 3, 4, 5, 59, 60, 61]);
                table = same(&call, &table, room, &mut met);
            }
        }
        assert!(met.keys().eq(&[0, 11, 15, 20, 21, 22]), "{met:?}");
        assert!(met.values().all(|&count| count > 20), "{met:?}");
    }

    #[test]
    fn plain_rust_refuses_a_checklist_with_a_muted_rule() {
        let mut table = sent_up_to(3);
        for slot in 0..=FILES + 3 {
            let muted = raw::mute(&table, slot, 1);
            assert_eq!(muted.refused, 0);
            assert_eq!(asked(&muted.table, 60), [15, 15], "slot {slot}");
            for call in [
                Call::FileSent { file: 4 },
                Call::FileSkipped { file: 1 },
                Call::SkipWithdrawn { file: 0 },
            ] {
                assert_eq!(
                    same(&call, &muted.table, 60, &mut BTreeMap::new()),
                    muted.table
                );
            }
            table = raw::mute(&muted.table, slot, 0).table;
        }
        assert!(table == sent_up_to(3));
    }

    #[test]
    fn plain_rust_refuses_the_same_tables() {
        let mut random = Random::seeded(2);
        let mut met = BTreeMap::new();
        for round in 0..400 {
            let mut table = mixed_table(&mut random);
            if round % 2 == 0 {
                let (_, opened) = oracle::checklist::open(1 + round % 60);
                let field = *random.pick(&FIELDS);
                table = damaged(&mut random, &opened, field);
            }
            let call = Call::FileSent { file: 1 };
            same(&call, &from_slow(&table), 60, &mut met);
        }
        assert!(met.get(&15).is_some_and(|&count| count > 500), "{met:?}");
    }

    #[test]
    fn both_open_and_send_all_the_same() {
        let all = sent_up_to(FILES);
        assert_eq!(checklist::complete(&all), Ok(true));
        let (_, mut table) = oracle::checklist::open(FILES);
        for file in 1..=FILES {
            assert!(oracle::checklist::file_sent(&mut table, file).is_ok());
        }
        assert!(from_slow(&table) == all);
    }
}
