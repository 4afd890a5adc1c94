//! Random lines of a sheet: commands, refusals, lines without a form, and long ones.

use crate::generate::again::Named;
use crate::limits::LINE_BYTES;
use crate::random::Random;

/// Lines that are not blank and don't have the form of a command.
pub const FORMLESS: [&[u8]; 95] = [
    b"A",
    b"A 1",
    b"A 1 2",
    b"A : 1",
    b"A :",
    b"A 1:",
    b"A 1:2",
    b"A 1 :2",
    b"A 1 : !2",
    b"A 1 :!",
    b"A 1 ! 2",
    b"A 1 ! 2 : 3",
    b"A 1 : : 2",
    b"A 1 : 2 : 3",
    b"A 1 : 2 ! 3 ! 4",
    b"A 1 : ! !",
    b"A 1 : 2! 3",
    b"A1 : 2",
    b"AA 1 :",
    b"a 1 :",
    b"A 1 : x",
    b"A x :",
    b"A 1 : 2,3",
    b"A 1 : 2 3.",
    b"A -1 :",
    b"A +1 :",
    b"A 1 : 0x1",
    b"A 00 :",
    b"A 01 :",
    b"A 1 : 00",
    b"A 1 : 2 ! 03",
    b"A 100000 :",
    b"A 1 : 100000",
    b"A 4294967297 :",
    b"A 18446744073709551617 :",
    b"A 1 : 1 2 3 4 5 6 7 8 9 x",
    b"A 256 : x",
    b"P",
    b"P 1",
    b"P 1 2",
    b"P : 1",
    b"P :",
    b"P 1 :",
    b"P 1 : 2",
    b"P 1 2 3",
    b"P 1 2 3 : 4",
    b"P 1 2: 3",
    b"P 1 2 :3",
    b"P 1 2 : !3",
    b"P 1 2 ! 3",
    b"P 1 2 ! 3 : 4",
    b"P 1 2 : : 3",
    b"P 1 2 : 3 ! 4 ! 5",
    b"P1 2 : 3",
    b"PP 1 2 :",
    b"p 1 2 :",
    b"P x 2 :",
    b"P 1 x :",
    b"P 1 2 : x",
    b"P 00 2 :",
    b"P 01 2 :",
    b"P 1 02 :",
    b"P 1 2 : 03",
    b"P -1 2 :",
    b"P 100000 2 :",
    b"P 1 100000 :",
    b"P 1 2 : ! 100000",
    b"P 4294967296 2 :",
    b"P 256 256 : x",
    b"A P 1 2 :",
    b"R",
    b"R1",
    b"R 1 2",
    b"R 00",
    b"R 01",
    b"R 100000",
    b"R x",
    b"r 1",
    b"W",
    b"W1",
    b"W 1 2",
    b"W 007",
    b"W 100000",
    b"w 1",
    b"L 1",
    b"L L",
    b"LL",
    b"l",
    b":",
    b"!",
    b"0",
    b"L\t",
    b"L\r",
    b"\0",
    b"\xc2\xa0L",
];

/// Lines that have a form but name numbers past a limit or break another question.
const REFUSED: [&[u8]; 34] = [
    b"A 256 :",
    b"A 65536 :",
    b"A 65537 : 1",
    b"A 99999 :",
    b"A 1 : 256",
    b"A 1 : ! 65536",
    b"A 1 : 99999",
    b"A 1 : 1 2 3 4 5 6 7 8 9",
    b"A 1 : 1 2 3 4 5 ! 6 7 8 256",
    b"A 256 : 1 2 3 4 5 6 7 8 9",
    b"A 1 : 2 2",
    b"A 1 : ! 3 3",
    b"A 1 : 256 2 2",
    b"A 1 : ! 1",
    b"A 7 : 7 ! 7",
    b"P 256 1 :",
    b"P 65536 1 :",
    b"P 99999 99999 : 1 1",
    b"P 256 256 : 1 2 3 4 5 6 7 8 9",
    b"P 255 256 :",
    b"P 0 256 :",
    b"P 0 256 : 1 2 3 4 5 6 7 8 9",
    b"P 0 1 : 1 2 3 4 5 ! 6 7 8 256",
    b"P 0 1 : 256 2 2",
    b"P 0 1 : ! 65537",
    b"P 0 1 : 2 2",
    b"P 0 1 : ! 3 3",
    b"P 0 1 : ! 1",
    b"P 1 7 : 7 ! 7",
    b"R 256",
    b"R 65536",
    b"R 99999",
    b"W 256",
    b"W 65536",
];

/// At most that many random bytes from those.
pub fn bytes_of(random: &mut Random, from: &[u8], most: usize) -> Vec<u8> {
    (0..random.between(0, most))
        .map(|_| *random.pick(from))
        .collect()
}

fn numbers(random: &mut Random, bound: usize, most: usize) -> Vec<u32> {
    (0..random.between(0, most))
        .map(|_| random.below(bound) as u32)
        .collect()
}

/// Each number after a space.
fn fields(numbers: &[u32]) -> String {
    numbers.iter().map(|number| format!(" {number}")).collect()
}

/// A command that reads well, over about that many atoms and slots.
pub fn command(random: &mut Random, atoms: usize, slots: usize) -> Vec<u8> {
    let line = match random.below(23) {
        0..=11 => addition(random, atoms),
        12..=14 => format!("R {}", random.below(slots)),
        15..=17 => format!("W {}", random.below(atoms)),
        18..=20 => format!("P {} {}", random.below(slots), drawn_rule(random, atoms)),
        _ => "L".to_string(),
    };
    if random.percent(15) {
        spaced(random, &line)
    } else {
        line.into_bytes()
    }
}

/// An addition over about that many atoms.
pub fn addition(random: &mut Random, atoms: usize) -> String {
    format!("A {}", drawn_rule(random, atoms))
}

/// A rule as it stands in a line.
fn drawn_rule(random: &mut Random, atoms: usize) -> String {
    let head = random.below(atoms);
    let most = *random.pick(&[2, 2, 3, 5]);
    let positives = fields(&numbers(random, atoms, most));
    if random.percent(60) {
        return format!("{head} :{positives}");
    }
    let negatives = fields(&numbers(random, atoms, most));
    format!("{head} :{positives} !{negatives}")
}

fn rule(named: &Named) -> String {
    let (positives, negatives) = (fields(&named.positives), fields(&named.negatives));
    let mark = if negatives.is_empty() { "" } else { " !" };
    format!("{} :{positives}{mark}{negatives}", named.head)
}

/// The line that adds this rule.
pub fn named(named: &Named) -> String {
    format!("A {}", rule(named))
}

/// The line that replaces what the slot holds by this rule.
pub fn replacing(slot: u32, named: &Named) -> String {
    format!("P {slot} {}", rule(named))
}

/// The line with more spaces between its tokens and at its ends.
fn spaced(random: &mut Random, line: &str) -> Vec<u8> {
    let mut wide = " ".repeat(random.below(4));
    for token in line.split(' ') {
        wide.push_str(token);
        wide.push_str(&" ".repeat(random.between(1, 4)));
    }
    wide.into_bytes()
}

/// A line of any kind, more often than not a command that reads well.
pub fn any_line(random: &mut Random, atoms: usize, slots: usize) -> Vec<u8> {
    match random.below(20) {
        0..=10 => command(random, atoms, slots),
        11..=13 => random.pick(&FORMLESS).to_vec(),
        14..=16 => random.pick(&REFUSED).to_vec(),
        17 => bytes_of(random, b" ", 5),
        18 => bytes_of(random, b"APRWL:! 0123456789\t\r\0\xff", 40),
        _ => long_line(random),
    }
}

/// The start of a line with many numbers behind it.
fn filled(start: &[u8], length: usize) -> Vec<u8> {
    let numbers = b" 2".iter().cycle();
    start.iter().chain(numbers).copied().take(length).collect()
}

/// A line at or around the longest length, or far past it: spaces, a command among spaces,
/// or one of many numbers.
fn long_line(random: &mut Random) -> Vec<u8> {
    let length = if random.percent(80) {
        random.between(LINE_BYTES - 1, LINE_BYTES + 2)
    } else {
        random.between(LINE_BYTES, 5_000)
    };
    let mut line: Vec<u8> = match random.below(5) {
        0 => Vec::new(),
        1 => command(random, 6, 8),
        2 => filled(b"A 1 :", length),
        3 => filled(b"P 0 1 :", length),
        _ => vec![*random.pick(b"Ax\t\r\0\xff"); length],
    };
    line.resize(length, b' ');
    if random.percent(30) {
        line.rotate_right(random.below(length));
    }
    line
}

/// A long line, or a command between.
pub fn long_or_command(random: &mut Random) -> Vec<u8> {
    if random.percent(60) {
        long_line(random)
    } else {
        command(random, 6, 8)
    }
}
