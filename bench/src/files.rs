//! Saving and loading each shape through the raw calls of the Rust crate, beside plain Rust; and files with one changed
//! byte, which are refused.

use crate::clock::Pair;
use crate::{plain, shapes};
use std::hint::black_box;
use yeqontur::raw::{self, Table, FILE_BYTES};

/// Both write the file of the table into a lent buffer.
fn save(table: &Table) -> Pair {
    let (mut ours, mut others) = ([0; FILE_BYTES], [0; FILE_BYTES]);
    Pair::timed(
        || raw::save(black_box(table), black_box(&mut ours)),
        || plain::save(black_box(table), black_box(&mut others)),
    )
}

fn load(file: &[u8]) -> Pair {
    Pair::timed(
        || raw::load(black_box(file)),
        || plain::load(black_box(file)),
    )
}

/// The file of the table. Both write it, and both read the table from it.
fn file_of(table: &Table) -> Vec<u8> {
    let (mut file, mut other) = (vec![0; FILE_BYTES], vec![0; FILE_BYTES]);
    let count = raw::save(table, &mut file).count;
    assert!(plain::save(table, &mut other) == Ok(count) && file == other);
    file.truncate(count);
    assert!(raw::load(&file).table == *table && plain::load(&file) == Ok(*table));
    file
}

/// The file with one byte changed, which both refuse.
fn changed(mut file: Vec<u8>, at: usize) -> Vec<u8> {
    file[at] ^= 1;
    assert!(raw::load(&file).refused == 17 && plain::load(&file) == Err(17));
    file
}

/// Plain Rust stops at the first wrong block, so that it counts in which one the byte is.
fn refused(table: &Table) {
    let file = file_of(table);
    let last = file.len() - 1;
    for (name, at) in [("first", 0), ("last", last)] {
        let name = format!("the same, its {name} byte changed");
        let told = load(&changed(file.clone(), at));
        println!("{name:32}{:25}{}", "", told.shown_beside());
    }
}

pub fn bench() {
    println!("Files through the raw calls of the Rust crate: microseconds, those of plain Rust, and the ratio. Saving");
    println!("writes into a lent buffer. A file with a changed byte is refused (17).");
    println!(
        "{:32}{:>9}{:>9}{:>7}{:>9}{:>9}{:>7}",
        "table", "save", "plain", "ratio", "load", "plain", "ratio"
    );
    let shapes = shapes::all();
    for (name, table) in &shapes {
        let (save, load) = (save(table), load(&file_of(table)));
        println!("{name:32}{}{}", save.shown_beside(), load.shown_beside());
    }
    let (_, full) = shapes.last().expect("a full table");
    refused(full);
}

#[cfg(test)]
mod tests {
    use crate::{plain, shapes};
    use compare::boundary::from_slow;
    use oracle::generate::files::{file, KINDS};
    use oracle::generate::marks::{marked, MARKS};
    use oracle::generate::programs::crowded;
    use oracle::generate::{mixed_table, table_of};
    use oracle::random::Random;
    use std::collections::BTreeMap;
    use yeqontur::raw::{self, Table, FILE_BYTES};

    /// What stands in a buffer before, so that a byte that was not written is seen, and a zero that was.
    const BEFORE: u8 = 0xa5;

    /// Both save into a buffer of so many bytes: the same answer, and the same bytes. Answers the refusal and them.
    fn saved(table: &Table, length: usize) -> (u32, Vec<u8>) {
        let (mut expected, mut told) = (vec![BEFORE; length], vec![BEFORE; length]);
        let answer = raw::save(table, &mut expected);
        let (refused, count) = match plain::save(table, &mut told) {
            Ok(count) => (0, count),
            Err(refusal) => refusal,
        };
        assert_eq!((refused, count), (answer.refused, answer.count));
        assert!(told == expected, "other bytes in a buffer of {length}");
        (refused, told)
    }

    /// Both load the bytes: the same answer, and the same table. Answers the refusal, 0 where there is none.
    fn loaded(bytes: &[u8]) -> u32 {
        let expected = raw::load(bytes);
        let (refused, table) = match plain::load(bytes) {
            Ok(table) => (0, table),
            Err(number) => (number, raw::empty()),
        };
        assert_eq!(refused, expected.refused);
        assert!(table == expected.table, "another table");
        refused
    }

    /// Both save the table, with as much room as it needs, more and less, and load it again.
    fn kept(table: &Table) {
        let slots = plain::slots(table).iter();
        let rules = slots.filter(|slot| slot[plain::STATE] != 0).count();
        let needed = 512 * rules.div_ceil(22).max(1);
        let (refused, file) = saved(table, needed);
        assert_eq!(refused, 0);
        assert!(saved(table, FILE_BYTES + 1).1.starts_with(&file));
        assert_eq!(saved(table, needed - 1).0, 11);
        assert_eq!(saved(table, 0).0, 11);
        assert_eq!(loaded(&file), 0);
        assert!(raw::load(&file).table == *table);
    }

    #[test]
    fn plain_rust_saves_and_loads_every_shape_the_same() {
        shapes::all().iter().for_each(|(_, table)| kept(table));
    }

    /// The rules stand in the first slots, and then anywhere, none of them muted, some or all.
    #[test]
    fn plain_rust_saves_and_loads_few_and_many_rules_the_same() {
        let mut random = Random::seeded(1);
        for count in [0, 1, 21, 22, 23, 44, 45, 242, 243, 255, 256] {
            let program = crowded(&mut random, count);
            for marks in MARKS {
                let mut program = marked(&mut random, program.clone(), marks);
                kept(&from_slow(&table_of(program.clone())));
                random.shuffle(&mut program);
                kept(&from_slow(&table_of(program)));
            }
        }
    }

    #[test]
    fn plain_rust_refuses_the_same_files() {
        let mut random = Random::seeded(1);
        let mut counts = BTreeMap::new();
        for &kind in KINDS.iter().cycle().take(60 * KINDS.len()) {
            *counts.entry(loaded(&file(&mut random, kind))).or_insert(0) += 1;
        }
        assert!(counts.keys().eq(&[0, 16, 17, 18, 19]), "{counts:?}");
        assert!(counts.values().all(|&count| count > 100), "{counts:?}");
    }

    /// 15 is asked before 11.
    #[test]
    fn plain_rust_refuses_to_save_the_same_tables() {
        let mut random = Random::seeded(1);
        let mut counts = BTreeMap::new();
        for _ in 0..1_000 {
            let table = from_slow(&mixed_table(&mut random));
            let length = *random.pick(&[0, 512, 1_024, 3_000, FILE_BYTES]);
            *counts.entry(saved(&table, length).0).or_insert(0) += 1;
        }
        assert!(counts.keys().eq(&[0, 11, 15]), "{counts:?}");
        assert!(counts.values().all(|&count| count > 100), "{counts:?}");
    }
}
