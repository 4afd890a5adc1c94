//! Random sheets through the sheet program and through `why`, the program that draws: what one prints as a refused
//! line, the other tells on standard error, and the label of an atom in its tree is the one that `L` prints at the
//! sheet's end.

use crate::program::{keep, output, pieces, run};
use oracle::generate::sheets;
use oracle::labels::Labelled;
use oracle::limits::{ATOMS, INPUT_BYTES};
use oracle::random::Random;
use oracle::sheet;
use std::collections::BTreeMap;
use std::process::Command;

/// What a line of a sheet can be refused by, and what an atom can be.
const KINDS: [&str; 16] = [
    "1", "2", "3", "4", "5", "6", "7", "8", "9", "10", "12", "13", "14", "in", "out", "absent",
];

/// From so many sheets on, each must come up so often.
const MANY: usize = 2_000;
const OFTEN: usize = 50;

/// Stands behind a sheet: a line that is refused, so that the listing behind it is found.
const BEHIND: &[u8] = b"\nW 256\nL\n";

/// What the sheet program answers: its refused lines, and what `L` prints at the end.
struct Answer {
    refused: Vec<String>,
    listing: String,
}

fn refused(printed: &str) -> Vec<String> {
    let lines = printed.lines().filter(|line| line.starts_with("line "));
    lines.map(str::to_string).collect()
}

/// A sheet that has no room for a listing is listed by the slow engine.
fn answer(program: &str, input: &[u8], lengths: &[usize]) -> Answer {
    let room = input.len() + BEHIND.len() <= INPUT_BYTES;
    let input_and_behind = [input, if room { BEHIND } else { b"" }].concat();
    let (printed, _) = run(program, &input_and_behind, lengths);
    let printed = String::from_utf8(printed).expect("what the sheet program prints");
    if !room {
        return Answer {
            refused: refused(&printed),
            listing: sheet::listing(&Labelled::of(sheet::left(input))),
        };
    }
    let (before, listing) = printed
        .rsplit_once(" refused 10\n")
        .expect("the line behind the sheet is refused");
    let mut refused = refused(before);
    refused.pop(); // the start of that line
    Answer {
        refused,
        listing: listing.to_string(),
    }
}

/// An atom of the listing, or now and then any.
fn drawn(random: &mut Random, listing: &str) -> usize {
    let lines: Vec<&str> = listing.lines().collect();
    if lines.is_empty() || random.percent(10) {
        return random.below(ATOMS);
    }
    let fields = random.pick(&lines).split(' ').next();
    fields.and_then(|atom| atom.parse().ok()).expect("an atom")
}

/// The state of an atom in the listing, and its label as `why` prints it.
fn label(atom: usize, listing: &str) -> (&'static str, String) {
    let mut lines = listing
        .lines()
        .map(|line| line.split(' ').collect::<Vec<_>>());
    let line = lines.find(|fields| fields[0] == atom.to_string());
    match line.as_deref() {
        Some([_, "in", depth, slot]) => (
            "in",
            format!("{{\"state\": \"in\", \"depth\": {depth}, \"slot\": {slot}}}"),
        ),
        Some(_) => ("out", "{\"state\": \"out\"}".to_string()),
        None => ("absent", "{\"state\": \"absent\"}".to_string()),
    }
}

/// The lines told, each up to the words of its refusal.
fn told(errors: &str) -> Vec<String> {
    let part = |line: &str| {
        let line = line.strip_prefix("standard input: ")?;
        line.split_once(": ")
            .map(|(refused, _)| refused.to_string())
    };
    let lines = errors.lines();
    lines
        .map(|line| part(line).unwrap_or_else(|| line.to_string()))
        .collect()
}

/// Does `why` tell these refused lines and nothing else, and print this label of the atom?
fn agrees(program: &str, input: &[u8], answer: &Answer, atom: usize) -> bool {
    let atom_word = atom.to_string();
    let ran = output(
        Command::new(program).args(["--json", "-", &atom_word]),
        input,
    );
    let (_, label) = label(atom, &answer.listing);
    let start = format!(
        "{{\"format\": \"yeqontur-why-1\", \"tree\": [\n  {{\"atom\": {atom}, \"label\": {label}, "
    );
    ran.status.success()
        && ran.stdout.starts_with(start.as_bytes())
        && told(&String::from_utf8_lossy(&ran.stderr)) == answer.refused
}

/// A sheet, in which now and then some lines end with CR LF.
fn input(random: &mut Random, number: usize) -> Vec<u8> {
    let flavour = sheets::FLAVOURS[number % sheets::FLAVOURS.len()];
    let sheet = sheets::sheet(random, flavour);
    if !random.percent(10) {
        return sheet;
    }
    let ended = |byte: u8| {
        let cr = byte == b'\n' && random.percent(20);
        cr.then_some(b'\r').into_iter().chain([byte])
    };
    sheet.into_iter().flat_map(ended).collect()
}

/// How often each kind came up.
#[derive(Default)]
struct Seen(BTreeMap<String, usize>);

impl Seen {
    fn note(&mut self, kind: &str) {
        *self.0.entry(kind.to_string()).or_default() += 1;
    }

    fn note_answer(&mut self, answer: &Answer, atom: usize) {
        self.note(label(atom, &answer.listing).0);
        for line in &answer.refused {
            self.note(line.rsplit(' ').next().unwrap_or_default());
        }
    }

    fn often(&self, kind: &str) -> usize {
        self.0.get(kind).copied().unwrap_or_default()
    }
}

/// Runs `count` sheets through both programs. One in which they differ is kept as a file. Answers how many differ;
/// refusals and labels that came up too rarely count as one.
pub fn compare(sheet: &str, why: &str, seed: u64, count: usize) -> usize {
    let mut random = Random::seeded(seed);
    let (mut failed, mut seen) = (0, Seen::default());
    for number in 0..count {
        let input = input(&mut random, number);
        let lengths = pieces(&mut random, input.len());
        let answer = answer(sheet, &input, lengths);
        let atom = drawn(&mut random, &answer.listing);
        seen.note_answer(&answer, atom);
        if !agrees(why, &input, &answer, atom) {
            let kept = keep(&format!("why-{seed}-{number}"), &input);
            println!("sheet {number} of seed {seed}, atom {atom}, differs: {kept}");
            failed += 1;
        }
    }
    let passed = count - failed;
    let often = KINDS.map(|kind| format!("{kind}: {}", seen.often(kind)));
    println!("refusals and labels: {}", often.join(", "));
    if count >= MANY && KINDS.iter().any(|kind| seen.often(kind) < OFTEN) {
        println!("a refusal or a label came up too rarely");
        failed += 1;
    }
    println!("trees compared with the sheet program: {passed} passed, {failed} failed");
    failed
}
