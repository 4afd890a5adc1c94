//! The proved engine beside plain Rust of the same algorithm and clingo.
//!
//!     bench                     tables of times and ratios, all measured in this run
//!     bench TABLE               one of them alone: calls, replacements, mutings, phases, files, checklists
//!     bench sheet PROGRAM       lines per second of the sheet program, beside plain Rust's and the slow engine's
//!     bench plain-sheet         plain Rust's sheet program
//!     bench slow-sheet          the slow engine's

mod calls;
mod checklists;
mod churn;
mod clingo;
mod clock;
mod files;
mod mutings;
mod phases;
mod plain;
mod replacements;
mod shapes;
mod sheet;

use std::io;
use std::process::ExitCode;

const USAGE: &str =
    "bench | bench calls | bench replacements | bench mutings | bench phases | bench files | bench checklists
    | bench sheet PROGRAM | bench plain-sheet | bench slow-sheet";

/// The tables of times by name, in the order in which all are printed.
const TABLES: [(&str, fn()); 6] = [
    ("calls", calls::bench),
    ("replacements", replacements::bench),
    ("mutings", mutings::bench),
    ("phases", phases::bench),
    ("files", files::bench),
    ("checklists", checklists::bench),
];

/// Prints every table, an empty line between.
fn all_tables() {
    for (place, (_, table)) in TABLES.iter().enumerate() {
        if place > 0 {
            println!();
        }
        table();
    }
}

fn done(outcome: io::Result<()>) -> ExitCode {
    match outcome {
        Ok(()) => ExitCode::SUCCESS,
        Err(error) => {
            eprintln!("bench: {error}");
            ExitCode::FAILURE
        }
    }
}

fn main() -> ExitCode {
    let words: Vec<String> = std::env::args().skip(1).collect();
    let words: Vec<&str> = words.iter().map(String::as_str).collect();
    if let Some((_, table)) = TABLES.iter().find(|(name, _)| words == [*name]) {
        table();
        return ExitCode::SUCCESS;
    }
    match words[..] {
        [] => {
            all_tables();
            ExitCode::SUCCESS
        }
        ["sheet", program] => done(sheet::bench(program)),
        ["plain-sheet"] => done(plain::sheet::run(io::stdin().lock(), io::stdout().lock())),
        ["slow-sheet"] => done(sheet::slow()),
        _ => {
            eprintln!("{USAGE}");
            ExitCode::from(2)
        }
    }
}
