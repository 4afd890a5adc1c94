//! A process that saves is ended at random moments: whatever it was doing, the path has one of the tables, whole.
#![cfg(unix)]

mod common;

use common::{folder, given, names, process, Random};
use std::io::{BufRead, BufReader};
use std::path::Path;
use std::process::{Child, Stdio};
use std::thread::sleep;
use std::time::{Duration, Instant};
use yeqontur::Table;

const KILLS: u32 = 300;

/// The two tables that are saved in turn, of one block and of twelve: a file cut short, or with the blocks of both, is
/// neither.
fn tables() -> [Table; 2] {
    let mut full = Table::new();
    (0..256).for_each(|atom| assert!(full.add(atom, &[], &[]).is_ok()));
    let mut small = Table::new();
    assert!(small.add(1, &[2], &[3]).is_ok());
    [small, full]
}

/// The process that is ended. It says when it begins, and then saves; not for ever, should nobody be left to end it.
#[test]
#[ignore = "the process that the test below ends"]
fn saves_in_turn() {
    let Some(path) = given() else { return };
    let tables = ["small", "full"].map(|name| Table::load_from(path.with_extension(name)));
    let tables = tables.map(|loaded| loaded.expect("a table"));
    println!("begins");
    let start = Instant::now();
    for table in tables.iter().cycle() {
        table.save_to(&path).expect("a save");
        if start.elapsed() > Duration::from_secs(60) {
            return;
        }
    }
}

/// The process, once it has begun.
fn begun(path: &Path) -> Child {
    let mut program = process("saves_in_turn", path);
    let mut child = program.stdout(Stdio::piped()).spawn().expect("a process");
    let lines = BufReader::new(child.stdout.take().expect("its output")).lines();
    let mut lines = lines.map(|line| line.expect("text"));
    assert!(lines.any(|line| line.ends_with("begins")));
    child
}

/// The time of a few saves: a process is ended within it.
fn a_few_saves(path: &Path, tables: &[Table; 2]) -> Duration {
    let start = Instant::now();
    for table in tables.iter().cycle().take(20) {
        table.save_to(path).expect("a save");
    }
    start.elapsed() / 5
}

/// How many new files were left by processes that were ended. The folder has nothing else but the files named.
fn left(folder: &Path) -> usize {
    let others = names(folder)
        .into_iter()
        .filter(|name| !name.starts_with("table"));
    let others: Vec<String> = others.collect();
    let is_new = |name: &String| name.starts_with(".yeqontur-") && name.ends_with(".tmp");
    assert!(others.iter().all(is_new), "{others:?}");
    others.len()
}

/// After how many kills each table was found, and after how many a new file was left: those came in its middle.
#[derive(Default, Debug)]
struct Found {
    tables: [u32; 2],
    left: usize,
}

/// Starts the process and ends it, again and again, and loads each time what is there.
fn found_after_kills(folder: &Path, random: &mut Random) -> Found {
    let path = folder.join("table");
    let tables = tables();
    for (table, name) in tables.iter().zip(["small", "full"]) {
        table.save_to(path.with_extension(name)).expect("a save");
    }
    let longest = a_few_saves(&path, &tables);
    let mut found = Found::default();
    for kill in 1..=KILLS {
        let mut child = begun(&path);
        sleep(longest * random.below(1000) / 1000);
        child.kill().expect("a kill");
        child.wait().expect("an end");
        let loaded = Table::load_from(&path).unwrap_or_else(|error| panic!("kill {kill}: {error}"));
        let which = tables.iter().position(|table| *table == loaded);
        found.tables[which.expect("one of the two tables")] += 1;
        let left = left(folder);
        assert!(left <= found.left + 1, "one process left two new files");
        found.left = left;
    }
    found
}

#[test]
fn whenever_a_saving_process_is_ended_one_of_the_tables_is_there_whole() {
    let folder = folder("kills");
    let found = found_after_kills(&folder, &mut Random(14));
    println!("{KILLS} kills: {found:?}");
    assert!(found.left > 0, "no kill came in the middle of a save");
    assert!(found.tables.iter().all(|&count| count > 0), "{found:?}");
}
