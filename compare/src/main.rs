//! What is proved against the slow engine.
//!
//!     compare tables SEED COUNT               COUNT tables of every kind: verdict, labels and rounds
//!     compare replay SEED COUNT               COUNT lists of calls written as numbers: answers and table
//!     compare calls SEED COUNT                COUNT random calls on the library
//!     compare checklists SEED COUNT           COUNT random calls, most of them on a checklist
//!     compare files SEED COUNT                COUNT random files loaded, COUNT random tables saved by the library
//!     compare sheets PROGRAM SEED COUNT       COUNT random sheets through the sheet program
//!     compare why SHEET WHY SEED COUNT        COUNT random sheets through the sheet program and the one that draws
//!     compare programs SEED COUNT SAVE LOAD   COUNT sheets through the saving, COUNT files through the loading program
//!     compare stream PROGRAM                  `L` lines over a full table, and the memory that it takes
//!     compare cut SEED COUNT PROGRAM..        sheets longer than a program reads, COUNT through each
//!     compare broken PROGRAM..                reads and writes that fail, on each program that answers a sheet
//!     compare broken-files SAVE LOAD          reads and writes that fail, on the programs that save and load

mod both;
mod broken;
mod broken_files;
mod calls;
mod checklists;
mod cut;
mod files;
mod program;
mod programs;
mod replay;
mod sheets;
mod stream;
mod tables;
mod why;

use std::process::ExitCode;

const USAGE: &str = "compare tables SEED COUNT | compare replay SEED COUNT
    | compare calls SEED COUNT | compare checklists SEED COUNT | compare files SEED COUNT
    | compare sheets PROGRAM SEED COUNT | compare why SHEET WHY SEED COUNT
    | compare programs SEED COUNT SAVE LOAD | compare stream PROGRAM
    | compare cut SEED COUNT PROGRAM.. | compare broken PROGRAM.. | compare broken-files SAVE LOAD";

/// Runs what the words name and answers how many comparisons failed; `None` if they name nothing.
fn obey(words: &[&str]) -> Option<usize> {
    match words {
        ["tables", seed, count] => Some(tables::compare(seed.parse().ok()?, count.parse().ok()?)),
        ["replay", seed, count] => Some(replay::compare(seed.parse().ok()?, count.parse().ok()?)),
        ["calls", seed, count] => Some(calls::compare(seed.parse().ok()?, count.parse().ok()?)),
        ["checklists", seed, count] => {
            Some(checklists::compare(seed.parse().ok()?, count.parse().ok()?))
        }
        ["sheets", program, seed, count] => Some(sheets::compare(
            program,
            seed.parse().ok()?,
            count.parse().ok()?,
        )),
        ["why", sheet, why, seed, count] => Some(why::compare(
            sheet,
            why,
            seed.parse().ok()?,
            count.parse().ok()?,
        )),
        ["files", seed, count] => Some(files::compare(seed.parse().ok()?, count.parse().ok()?)),
        ["programs", seed, count, save, load] => Some(programs::compare(
            seed.parse().ok()?,
            count.parse().ok()?,
            save,
            load,
        )),
        ["stream", program] => Some(stream::compare(program)),
        ["cut", seed, count, programs @ ..] => Some(cut::compare(
            seed.parse().ok()?,
            count.parse().ok()?,
            programs,
        )),
        ["broken", programs @ ..] if !programs.is_empty() => Some(broken::compare(programs)),
        ["broken-files", save, load] => Some(broken_files::compare(save, load)),
        _ => None,
    }
}

fn main() -> ExitCode {
    let arguments: Vec<String> = std::env::args().skip(1).collect();
    let words: Vec<&str> = arguments.iter().map(String::as_str).collect();
    match obey(&words) {
        Some(0) => ExitCode::SUCCESS,
        Some(_) => ExitCode::FAILURE,
        None => {
            eprintln!("{USAGE}");
            ExitCode::from(2)
        }
    }
}
