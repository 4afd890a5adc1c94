//! Random sheets through the saving program and random files through the loading program, byte for byte.

use crate::program::{keep, pieces, run};
use oracle::file::read;
use oracle::generate::files::{any_file, file, Kind};
use oracle::generate::sheets::{sheet, Flavour, FLAVOURS};
use oracle::limits::INPUT_BYTES;
use oracle::random::Random;
use oracle::rules::muted;
use oracle::saving;

/// How many inputs of each program are longer than what it reads.
const LONG: usize = 4;

/// From so many files on, one of twenty must be loaded with a muted rule in it.
const MANY: usize = 400;

/// A program, what its inputs are called, and the whole of what it must print for one.
struct Tried<'a> {
    program: &'a str,
    input: &'a str,
    prints: fn(&[u8]) -> Vec<u8>,
}

impl Tried<'_> {
    /// Runs the program on each input. One whose output differs is kept as a file. Answers how many differ.
    fn differing(
        &self,
        random: &mut Random,
        seed: u64,
        inputs: impl Iterator<Item = Vec<u8>>,
    ) -> usize {
        let mut failed = 0;
        for (number, input) in inputs.enumerate() {
            let lengths = pieces(random, input.len());
            let (printed, said) = run(self.program, &input, lengths);
            if printed != (self.prints)(&input) || !said.is_empty() {
                let what = format!("{}-{seed}-{number}", self.input);
                let kept = keep(&what, &input);
                println!("{}: {what} differs: {kept}", self.program);
                failed += 1;
            }
        }
        failed
    }
}

/// A sheet of any flavour that is not longer than what is read.
fn short_sheet(random: &mut Random, number: usize) -> Vec<u8> {
    let short: Vec<Flavour> = FLAVOURS
        .into_iter()
        .filter(|&flavour| flavour != Flavour::Cut)
        .collect();
    sheet(random, short[number % short.len()])
}

/// A sheet that is cut within a number of an addition: a byte more or less gives another table, and so does the line
/// behind it.
fn long_sheet(random: &mut Random) -> Vec<u8> {
    let kept = *random.pick(&["A 200 : 1 2", "A 200 : 1 23 4", "A 200 : 1 23 45 6"]);
    let mut long = sheet(random, Flavour::Story);
    long.resize(INPUT_BYTES - kept.len(), b'\n');
    long.extend(kept.bytes());
    long.extend(b"7\nA 77 :\n");
    long
}

/// Whole files one behind the other, a whole file with zeros or noise behind it, or no file.
fn long_file(random: &mut Random) -> Vec<u8> {
    let mut long = file(random, Kind::AnyTable);
    let length = INPUT_BYTES + random.between(1, 5_000);
    match random.below(4) {
        0 => long = long.repeat(length / long.len() + 1),
        1 => long.resize(length, 0),
        2 => long.extend((0..length).map(|_| random.word() as u8)),
        _ => long = vec![0; length],
    }
    long
}

/// `count` inputs and no byte at all, then the long ones.
fn inputs(
    seed: u64,
    count: usize,
    input: fn(&mut Random, usize) -> Vec<u8>,
    long: fn(&mut Random) -> Vec<u8>,
) -> impl Iterator<Item = Vec<u8>> {
    let mut random = Random::seeded(seed);
    (0..count + 1 + LONG).map(move |number| match number {
        number if number < count => input(&mut random, number),
        number if number == count => Vec::new(),
        _ => long(&mut random),
    })
}

/// The inputs of the loading program.
fn files(seed: u64, count: usize) -> impl Iterator<Item = Vec<u8>> {
    inputs(seed, count, |random, _| any_file(random), long_file)
}

/// How many of them are accepted and have a muted rule.
fn with_muted(seed: u64, count: usize) -> usize {
    let has_muted = |bytes: &Vec<u8>| read(bytes).is_ok_and(|rules| muted(&rules).next().is_some());
    files(seed, count).filter(has_muted).count()
}

/// Runs `count` inputs and some special ones through each program. Answers how many differ; too few files with a muted
/// rule count as one.
pub fn compare(seed: u64, count: usize, save: &str, load: &str) -> usize {
    let mut random = Random::seeded(seed);
    let saving = Tried {
        program: save,
        input: "saved-sheet",
        prints: saving::save,
    };
    let loading = Tried {
        program: load,
        input: "loaded-file",
        prints: saving::load,
    };
    let sheets = inputs(seed, count, short_sheet, long_sheet);
    let files = files(seed, count);
    let mut failed =
        saving.differing(&mut random, seed, sheets) + loading.differing(&mut random, seed, files);
    let passed = 2 * (count + 1 + LONG) - failed;
    let muted = with_muted(seed, count);
    println!("files loaded with a muted rule: {muted}");
    if count >= MANY && 20 * muted < count {
        println!("too few files with a muted rule");
        failed += 1;
    }
    println!("sheets saved and files loaded by programs: {passed} passed, {failed} failed");
    failed
}
