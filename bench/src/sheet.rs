//! The sheet program beside plain Rust's and the slow engine's: three processes on the same sheet. Plain Rust asks what
//! the sheet program asks. The slow engine keeps the plain book: it never asks question 15, and finds labels only for a
//! line that shows them.

use crate::churn::{self, Sheet};
use oracle::limits::INPUT_BYTES;
use std::fs::{self, File};
use std::io::{self, Read, Write};
use std::path::{Path, PathBuf};
use std::process::{Command, Stdio};
use std::time::Instant;

/// How often each program is timed.
const RUNS: usize = 20;

/// The slow engine's sheet program.
pub fn slow() -> io::Result<()> {
    let mut input = Vec::new();
    io::stdin()
        .take(INPUT_BYTES as u64)
        .read_to_end(&mut input)?;
    io::stdout().write_all(&oracle::sheet::run(&input))
}

/// A program that answers a sheet.
struct Program {
    name: &'static str,
    path: PathBuf,
    words: &'static [&'static str],
}

impl Program {
    /// The program, about to be run on the sheet in the file.
    fn on(&self, file: &Path) -> io::Result<Command> {
        let mut command = Command::new(&self.path);
        command.args(self.words).stdin(File::open(file)?);
        Ok(command)
    }

    fn printed(&self, file: &Path) -> io::Result<Vec<u8>> {
        let output = self.on(file)?.stderr(Stdio::inherit()).output();
        let output = output.map_err(|e| io::Error::other(format!("{}: {e}", self.name)))?;
        Ok(output.stdout)
    }

    /// Seconds from the start of a run to its end. What it prints goes nowhere, which costs every program the same.
    fn seconds(&self, file: &Path) -> io::Result<f64> {
        let mut command = self.on(file)?;
        command.stdout(Stdio::null());
        let start = Instant::now();
        command.status()?;
        Ok(start.elapsed().as_secs_f64())
    }
}

/// The byte from which the two differ.
fn difference(one: &[u8], other: &[u8]) -> Option<usize> {
    let same = one.iter().zip(other).take_while(|(x, y)| x == y).count();
    (same < one.len().max(other.len())).then_some(same)
}

/// All programs print the same on the sheet in the file, or it is said which one does not.
fn compare(programs: &[Program], file: &Path) -> io::Result<()> {
    let expected = programs[0].printed(file)?;
    for program in &programs[1..] {
        if let Some(byte) = difference(&expected, &program.printed(file)?) {
            let names = format!("{} and {}", programs[0].name, program.name);
            return Err(io::Error::other(format!("{names} differ in byte {byte}")));
        }
    }
    Ok(())
}

/// The least seconds of each program on the sheet in the file, timed in turn.
fn times<const N: usize>(programs: &[Program; N], file: &Path) -> io::Result<[f64; N]> {
    let mut best = [f64::MAX; N];
    for _ in 0..RUNS {
        for (program, best) in programs.iter().zip(&mut best) {
            *best = best.min(program.seconds(file)?);
        }
    }
    Ok(best)
}

/// A row of the table: lines per second of each program, and the ratio of the first one's time to each other's.
fn row(sheet: &Sheet, [proved, plain, slow]: [f64; 3]) -> String {
    let lines = sheet.lines();
    let speed = |seconds: f64| format!("{:11.0}", lines as f64 / seconds);
    let ratio = |seconds: f64| format!("{:8.3}", proved / seconds);
    format!(
        "{:32}{lines:7}{}{}{}{}{}",
        sheet.name,
        speed(proved),
        speed(plain),
        ratio(plain),
        speed(slow),
        ratio(slow)
    )
}

/// The program, plain Rust's and the slow engine's, which are commands of this one.
fn programs(path: &str) -> io::Result<[Program; 3]> {
    let own = std::env::current_exe()?;
    let of = |name, path, words| Program { name, path, words };
    Ok([
        of("the sheet program", PathBuf::from(path), &[]),
        of("plain Rust", own.clone(), &["plain-sheet"]),
        of("the slow engine", own, &["slow-sheet"]),
    ])
}

pub fn bench(path: &str) -> io::Result<()> {
    let programs = programs(path)?;
    println!("Sheets: lines per second of the sheet program, of plain Rust's and of the slow engine's, which print");
    println!("the same; the ratio of its time to theirs. A process for each run, best of {RUNS}.");
    println!(
        "{:32}{:>7}{:>11}{:>11}{:>8}{:>11}{:>8}",
        "sheet", "lines", "proved", "plain", "ratio", "oracle", "ratio"
    );
    let file = std::env::temp_dir().join(format!("bench-{}.sheet", std::process::id()));
    for sheet in churn::all() {
        fs::write(&file, &sheet.bytes)?;
        let times = compare(&programs, &file).and_then(|()| times(&programs, &file));
        fs::remove_file(&file)?;
        println!("{}", row(&sheet, times?));
    }
    Ok(())
}
