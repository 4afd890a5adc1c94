//! A sheet of `L` lines over a full table, as long as a program reads (`MOST` of crates/sheet_meaning/specs/Sheets.antt):
//! gigabytes are printed, and memory stays as it is.

use crate::program::{start, write_pieces};
use oracle::limits::INPUT_BYTES;
use oracle::sheet;
use std::fs;
use std::io::Read;
use std::thread;

/// The most memory that the program may take, in kilobytes.
const MEMORY: u64 = 8192;

/// Memory is read while so many listings are still to come: more than a pipe and the program's buffer hold, so that the
/// program is still there.
const LAST: usize = 1000;

/// Rules that fill the table: a chain in which every atom is in.
fn full_table() -> String {
    let rule = |atom: u32| match atom {
        0 => "A 0 :\n".to_string(),
        _ => format!("A {atom} : {}\n", atom - 1),
    };
    (0..256).map(rule).collect()
}

/// The most memory that a running process has taken, in kilobytes.
fn peak(process: u32) -> u64 {
    let status = fs::read_to_string(format!("/proc/{process}/status")).unwrap_or_default();
    let line = status.lines().find_map(|l| l.strip_prefix("VmHWM:"));
    let number = line.and_then(|l| l.split_whitespace().next()?.parse().ok());
    number.unwrap_or(0)
}

/// Reads blocks of the expected bytes to the end of the output; answers how many came, or `None` at another byte.
fn blocks(mut from: impl Read, block: &[u8]) -> Option<usize> {
    let mut got = vec![0; block.len()];
    let mut count = 0;
    loop {
        match from.read_exact(&mut got) {
            Ok(()) if got == block => count += 1,
            Ok(()) => return None,
            Err(_) => return Some(count),
        }
    }
}

/// Answers how many of the two comparisons failed: the bytes, the memory.
pub fn compare(program: &str) -> usize {
    let rules = full_table();
    let listings = (INPUT_BYTES - rules.len()) / 2;
    let input = rules.clone() + &"L\n".repeat(listings);
    let answers = sheet::run(rules.as_bytes());
    let block = sheet::run(&[rules.as_bytes(), b"L\n"].concat())[answers.len()..].to_vec();
    let mut child = start(program);
    let to = child.stdin.take().expect("its input");
    let mut from = child.stdout.take().expect("its output");
    let process = child.id();
    let (mut same, mut memory) = (false, 0);
    thread::scope(|scope| {
        scope.spawn(|| write_pieces(to, input.as_bytes(), &[65536]));
        let mut first = vec![0; answers.len()];
        same = from.read_exact(&mut first).is_ok() && first == answers;
        let most = (listings - LAST) * block.len();
        same &= blocks((&mut from).take(most as u64), &block) == Some(listings - LAST);
        memory = peak(process);
        same &= blocks(&mut from, &block) == Some(LAST);
    });
    child.wait().expect("its end");
    let failed = usize::from(!same) + usize::from(memory == 0 || memory > MEMORY);
    println!(
        "{listings} listings of {} bytes, {memory} kB: {} passed, {failed} failed",
        block.len(),
        2 - failed
    );
    failed
}
