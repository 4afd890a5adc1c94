//! Sheets that are longer than a program reads: what it prints of an input is what the first 1,048,576 bytes print
//! (`MOST`, `cut` and `ProgramPrints` of crates/sheet_meaning/specs/Sheets.antt), whatever follows them.

use crate::program::run;
use oracle::generate::sheets::{self, Flavour};
use oracle::limits::INPUT_BYTES;
use oracle::random::Random;
use oracle::sheet;

/// Does the program print the same of the whole input and of the part that is read, and as the slow engine says?
fn passes(program: &str, input: &[u8]) -> bool {
    let part = &input[..input.len().min(INPUT_BYTES)];
    let expected = (sheet::run(part), Vec::new());
    [input, part]
        .iter()
        .all(|given| run(program, given, &[65_536]) == expected)
}

/// Runs `count` sheets through each program. Answers how many differ.
pub fn compare(seed: u64, count: usize, programs: &[&str]) -> usize {
    let mut random = Random::seeded(seed);
    let mut failed = 0;
    for program in programs {
        for number in 0..count {
            if !passes(program, &sheets::sheet(&mut random, Flavour::Cut)) {
                println!("{program}: sheet {number} of seed {seed} differs");
                failed += 1;
            }
        }
    }
    println!(
        "sheets longer than a program reads: {} passed, {failed} failed",
        programs.len() * count - failed
    );
    failed
}
