//! Random sheets of every flavour through the sheet program, byte for byte. What replacements came to is counted: each
//! kind must come up.

use crate::program::{keep, pieces, run};
use oracle::generate::replacement_kinds::{Seen, REFUSALS};
use oracle::generate::sheets;
use oracle::random::Random;
use oracle::sheet;

/// From so many sheets on, replacements must come so often to each of their ends.
const MANY: usize = 2_000;
const OFTEN: usize = 100;

/// Runs `count` sheets through the program. One whose output differs is kept as a file. Answers how many differ;
/// replacements that came too rarely to one of their ends count as one.
pub fn compare(program: &str, seed: u64, count: usize) -> usize {
    let mut random = Random::seeded(seed);
    let mut failed = 0;
    let mut replacements = Seen::default();
    for (number, &flavour) in (0..count).zip(sheets::FLAVOURS.iter().cycle()) {
        let input = sheets::sheet(&mut random, flavour);
        replacements.note_sheet(&input);
        let lengths = pieces(&mut random, input.len());
        let (printed, said) = run(program, &input, lengths);
        if printed != sheet::run(&input) || !said.is_empty() {
            let kept = keep(&format!("sheet-{seed}-{number}"), &input);
            println!("sheet {number} of seed {seed} differs: {kept}");
            failed += 1;
        }
    }
    let passed = count - failed;
    println!("{replacements}");
    let refusals = [&REFUSALS[..], &[13, 14]].concat();
    if count >= MANY && !replacements.is_enough(&refusals, OFTEN) {
        println!("replacements came too rarely to one of their ends");
        failed += 1;
    }
    println!("sheets compared with the slow engine: {passed} passed, {failed} failed");
    failed
}
