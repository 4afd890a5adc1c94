//! The oracle's commands.

use oracle::generate::{mixed_table, sheets};
use oracle::labels::Labelled;
use oracle::limits::INPUT_BYTES;
use oracle::random::Random;
use oracle::saving;
use oracle::sheet;
use oracle::sound::{sound, sound_rules};
use oracle::table::RawTable;
use std::io::{self, Read, Write};
use std::path::Path;
use std::process::ExitCode;

const USAGE: &str = "\
usage: oracle sheet < SHEET             print what the sheet program must print
       oracle sheets SEED COUNT DIR     write COUNT sheets and what each must print
       oracle tables SEED COUNT         write COUNT encoded tables, sound and damaged
       oracle labels < TABLES           print for each table whether it is sound, and its labels
       oracle save < SHEET              print the blocks that the saving program must print
       oracle load < BLOCKS             print what the loading program must print
";

fn main() -> ExitCode {
    let arguments: Vec<String> = std::env::args().skip(1).collect();
    let words: Vec<&str> = arguments.iter().map(String::as_str).collect();
    let Some(outcome) = obey(&words) else {
        eprint!("{USAGE}");
        return ExitCode::from(2);
    };
    match outcome {
        Ok(()) => ExitCode::SUCCESS,
        Err(error) => {
            eprintln!("oracle: {error}");
            ExitCode::FAILURE
        }
    }
}

/// Runs the command that the words name; `None` if they name none.
fn obey(words: &[&str]) -> Option<io::Result<()>> {
    match words {
        ["sheet"] => Some(print_of_input(sheet::run)),
        ["save"] => Some(print_of_input(saving::save)),
        ["load"] => Some(print_of_input(saving::load)),
        ["sheets", seed, count, directory] => Some(write_sheets(
            seed.parse().ok()?,
            count.parse().ok()?,
            Path::new(directory),
        )),
        ["tables", seed, count] => Some(write_tables(seed.parse().ok()?, count.parse().ok()?)),
        ["labels"] => Some(print_labels()),
        _ => None,
    }
}

/// What that program prints for the input.
fn print_of_input(program: fn(&[u8]) -> Vec<u8>) -> io::Result<()> {
    let mut input = Vec::new();
    // A failed read ends the input; what was read before it is kept.
    let _ended = io::stdin()
        .lock()
        .take(INPUT_BYTES as u64)
        .read_to_end(&mut input);
    io::stdout().lock().write_all(&program(&input))
}

fn write_sheets(seed: u64, count: usize, directory: &Path) -> io::Result<()> {
    let mut random = Random::seeded(seed);
    std::fs::create_dir_all(directory)?;
    for (number, &flavour) in (0..count).zip(sheets::FLAVOURS.iter().cycle()) {
        let input = sheets::sheet(&mut random, flavour);
        std::fs::write(
            directory.join(format!("{number:04}.out")),
            sheet::run(&input),
        )?;
        std::fs::write(directory.join(format!("{number:04}.in")), input)?;
    }
    Ok(())
}

fn write_tables(seed: u64, count: usize) -> io::Result<()> {
    let mut random = Random::seeded(seed);
    let mut out = io::BufWriter::new(io::stdout().lock());
    for _ in 0..count {
        out.write_all(&mixed_table(&mut random).to_bytes())?;
    }
    out.flush()
}

fn print_labels() -> io::Result<()> {
    let mut input = io::BufReader::new(io::stdin().lock());
    let mut out = io::BufWriter::new(io::stdout().lock());
    let mut bytes = Vec::with_capacity(RawTable::BYTES);
    loop {
        bytes.clear();
        input
            .by_ref()
            .take(RawTable::BYTES as u64)
            .read_to_end(&mut bytes)?;
        if bytes.is_empty() {
            return out.flush();
        }
        let table = RawTable::from_bytes(&bytes).ok_or(io::ErrorKind::UnexpectedEof)?;
        writeln!(out, "{}", verdict(&table))?;
    }
}

/// `sound` or `unsound`, then, where the table's rules define them, the labels of the
/// occurring atoms, each after a semicolon and as a sheet shows it.
fn verdict(table: &RawTable) -> String {
    let mut line = String::from(if sound(table) { "sound" } else { "unsound" });
    if let Some(program) = sound_rules(table) {
        for (atom, label) in Labelled::of(program).occurring() {
            line.push_str("; ");
            line.push_str(&sheet::shown(atom, label));
        }
    }
    line
}
