//! The commands of the program.

use crate::notation::program;
use oracle::file::write;
use oracle::limits::INPUT_BYTES;
use oracle::sheet;
use oracle::table::RawTable;
use std::io::Write;
use std::process::{Command, Output, Stdio};

fn oracle(words: &[&str], input: &[u8]) -> Output {
    let mut program = Command::new(env!("CARGO_BIN_EXE_oracle"))
        .args(words)
        .stdin(Stdio::piped())
        .stdout(Stdio::piped())
        .stderr(Stdio::piped())
        .spawn()
        .expect("the program starts");
    let written = program.stdin.take().unwrap().write_all(input);
    let output = program.wait_with_output().expect("the program ends");
    assert!(
        written.is_ok() || !output.status.success(),
        "an accepted command reads its input"
    );
    output
}

#[test]
fn sheet_prints_what_the_sheet_program_must_print() {
    let output = oracle(&["sheet"], b"A 1 : ! 2\nL\nW 2");
    assert_eq!(
        String::from_utf8(output.stdout).unwrap(),
        "slot 0\n1 in 1 0\n2 out\nline 3 refused 12\n"
    );
    assert!(output.status.success() && output.stderr.is_empty());
}

#[test]
fn save_prints_the_blocks_that_the_saving_program_must_print() {
    let output = oracle(&["save"], b"A 1 : ! 2\nL\nx\n");
    assert_eq!(output.stdout, write(&program(&["1 < !2"])));
    assert!(output.status.success() && output.stderr.is_empty());
}

#[test]
fn load_prints_what_the_loading_program_must_print() {
    let file = write(&program(&["1 < !2"]));
    for (input, printed) in [
        (&file[..], "1 in 1 0\n2 out\n"),
        (&file[1..], "refused 16\n"),
        (&file.repeat(3_000), "refused 16\n"),
    ] {
        let output = oracle(&["load"], &input[..input.len().min(INPUT_BYTES)]);
        assert_eq!(String::from_utf8(output.stdout).unwrap(), printed);
        assert!(output.status.success() && output.stderr.is_empty());
    }
}

#[test]
fn sheets_writes_sheets_with_what_each_must_print() {
    let directory = std::env::temp_dir().join(format!("oracle-sheets-{}", std::process::id()));
    let output = oracle(&["sheets", "7", "9", directory.to_str().unwrap()], b"");
    assert!(output.status.success());
    for number in 0..9 {
        let read =
            |kind: &str| std::fs::read(directory.join(format!("{number:04}.{kind}"))).unwrap();
        assert_eq!(sheet::run(&read("in")), read("out"));
    }
    std::fs::remove_dir_all(directory).unwrap();
}

#[test]
fn labels_judges_the_tables_that_tables_writes() {
    let tables = oracle(&["tables", "3", "40"], b"").stdout;
    assert_eq!(tables.len(), 40 * RawTable::BYTES);
    let output = String::from_utf8(oracle(&["labels"], &tables).stdout).unwrap();
    let verdicts: Vec<&str> = output
        .lines()
        .map(|line| line.split(';').next().unwrap())
        .collect();
    let defined: Vec<&str> = tables
        .chunks_exact(RawTable::BYTES)
        .map(|bytes| RawTable::from_bytes(bytes).unwrap())
        .map(|table| {
            if oracle::sound::sound(&table) {
                "sound"
            } else {
                "unsound"
            }
        })
        .collect();
    assert_eq!(verdicts, defined);
    assert!(verdicts.contains(&"sound") && verdicts.contains(&"unsound"));
}

#[test]
fn labels_shows_each_occurring_atom_and_refuses_half_a_table() {
    let mut bytes = crate::notation::table(&["1 < !2"]).to_bytes();
    assert_eq!(
        oracle(&["labels"], &bytes).stdout,
        b"sound; 1 in 1 0; 2 out\n"
    );
    bytes[2 * 12] = 2;
    assert_eq!(
        oracle(&["labels"], &bytes).stdout,
        b"unsound; 1 in 1 0; 2 out\n"
    );
    bytes[0] = 3;
    assert_eq!(oracle(&["labels"], &bytes).stdout, b"unsound\n");
    assert_eq!(oracle(&["labels"], &bytes[1..]).status.code(), Some(1));
}

#[test]
fn anything_else_gets_the_usage_and_status_2() {
    for words in [
        &[][..],
        &["sheet", "x"],
        &["tables", "1"],
        &["tables", "x", "1"],
        &["save", "x"],
        &["load", "x"],
        &["nothing"],
    ] {
        let output = oracle(words, b"");
        assert_eq!(output.status.code(), Some(2), "{words:?}");
        assert!(
            output.stdout.is_empty() && output.stderr.starts_with(b"usage: oracle sheet"),
            "{words:?}"
        );
    }
}
