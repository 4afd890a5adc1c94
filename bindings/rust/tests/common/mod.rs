//! What the tests share.
#![allow(dead_code)] // each test file uses a part

pub mod json;
pub mod program;
pub mod schema;

use std::path::{Path, PathBuf};
use std::process::Command;
use std::{env, fs};
use yeqontur::{raw, Table};

/// A table of rules (head, positives, negatives), in slots 0, 1, ..
pub fn table(rules: &[(u32, &[u32], &[u32])]) -> Table {
    let mut table = Table::new();
    for (slot, (head, positives, negatives)) in rules.iter().enumerate() {
        assert_eq!(table.add(*head, positives, negatives), Ok(slot as u32));
    }
    table
}

/// T11's first table (specification 10.1).
pub fn fourth_example() -> Table {
    table(&[
        (1, &[2], &[]),
        (2, &[], &[3]),
        (1, &[4], &[]),
        (4, &[3], &[]),
        (3, &[4], &[]),
        (3, &[], &[5]),
    ])
}

/// An empty folder of the test's own.
pub fn folder(name: &str) -> PathBuf {
    let folder = Path::new(env!("CARGO_TARGET_TMPDIR")).join(name);
    let _ = fs::remove_dir_all(&folder); // of an earlier run
    fs::create_dir(&folder).expect("a folder");
    folder
}

/// The names in a folder, ascending.
pub fn names(folder: &Path) -> Vec<String> {
    let entries = fs::read_dir(folder).expect("a folder");
    let name = |entry: fs::DirEntry| entry.file_name().into_string().expect("a name");
    let mut names: Vec<String> = entries
        .map(|entry| name(entry.expect("an entry")))
        .collect();
    names.sort();
    names
}

const GIVEN: &str = "YEQONTUR_TEST_PATH";

/// One of this program's ignored tests as a process of its own, given a path to work on.
pub fn process(test: &str, path: &Path) -> Command {
    process_of(&env::current_exe().expect("this program"), test, path)
}

/// The same of a copy of this program.
pub fn process_of(program: &Path, test: &str, path: &Path) -> Command {
    let mut program = Command::new(program);
    program.args(["--exact", test, "--ignored", "--nocapture"]);
    program.env(GIVEN, path);
    program
}

/// The path given to this process; none if it is not one that a test started.
pub fn given() -> Option<PathBuf> {
    env::var_os(GIVEN).map(PathBuf::from)
}

/// A seeded generator (splitmix64), so that a run can be repeated.
pub struct Random(pub u64);

impl Random {
    pub fn word(&mut self) -> u64 {
        self.0 = self.0.wrapping_add(0x9e37_79b9_7f4a_7c15);
        let mixed = (self.0 ^ (self.0 >> 30)).wrapping_mul(0xbf58_476d_1ce4_e5b9);
        let mixed = (mixed ^ (mixed >> 27)).wrapping_mul(0x94d0_49bb_1331_11eb);
        mixed ^ (mixed >> 31)
    }

    pub fn below(&mut self, bound: u32) -> u32 {
        (self.word() % u64::from(bound)) as u32
    }

    /// At most so many atoms, which may repeat.
    pub fn list(&mut self, longest: u32, atoms: u32) -> Vec<u32> {
        (0..self.below(longest + 1))
            .map(|_| self.below(atoms))
            .collect()
    }

    /// A table that this many additions over so many atoms were tried on; refused ones leave it as it was.
    pub fn table(&mut self, additions: u32, atoms: u32) -> Table {
        let mut table = Table::new();
        for _ in 0..additions {
            let (positives, negatives) = (self.list(3, atoms), self.list(2, atoms));
            let _ = table.add(self.below(atoms), &positives, &negatives);
        }
        table
    }

    /// Such a table, and each of its rules muted once in so many times.
    pub fn muted_table(&mut self, additions: u32, atoms: u32, times: u32) -> Table {
        let mut table = self.table(additions, atoms);
        for slot in 0..table.rules().count() as u32 {
            if self.below(times) == 0 {
                assert_eq!(table.mute(slot), Ok(()));
            }
        }
        table
    }

    /// Fields of any bytes.
    pub fn fields(&mut self) -> raw::Table {
        raw::Table {
            words: std::array::from_fn(|_| self.word() as u16),
        }
    }
}

/// Which of a slot's numbers a test damages. Programs ask the calls.
#[derive(Clone, Copy)]
pub enum Place {
    State = 0,
    Negatives = 3,
    Entries = 4,
    Depth = 12,
    Spoiler = 13,
}

/// One of the numbers of a slot.
pub fn word(fields: &mut raw::Table, slot: usize, place: Place) -> &mut u16 {
    &mut fields.words[14 * slot + place as usize]
}

/// Two entries of a slot in each other's place.
pub fn swap_entries(fields: &mut raw::Table, slot: usize, one: usize, other: usize) {
    let first = 14 * slot + Place::Entries as usize;
    fields.words.swap(first + one, first + other);
}
