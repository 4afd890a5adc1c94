//! Reads and writes that fail, on the programs that save and load: each reads its input to the end and prints once. A
//! failed read is the input's end, and what came before it is saved or loaded; a write that failed is told in one line
//! on standard error.

use crate::broken::{closed_pipe, ended, full_device, shell, start, Left};
use oracle::file;
use oracle::saving;
use oracle::sheet;
use std::fs::File;
use std::io::Write;
use std::os::fd::OwnedFd;
use std::os::unix::net::UnixStream;
use std::process::{Command, Stdio};

/// What is said of output that cannot be written.
const TOLD: &[u8] = b"yeqontur: the output cannot be written\n";

/// Two rules, the last line without its newline.
const SHEET: &[u8] = b"A 1 :\nx\nA 2 : 1 ! 3";

/// A program, an input of which it prints something, and the whole of what it must print of an input.
struct Tried<'a> {
    program: &'a str,
    input: Vec<u8>,
    prints: fn(&[u8]) -> Vec<u8>,
}

impl Left {
    fn told(&self) -> bool {
        self.said == TOLD && self.signal.is_none()
    }
}

impl Tried<'_> {
    /// The command on the whole input, which then ends.
    fn left(&self, command: &mut Command, output: Stdio, errors: Stdio) -> Option<Left> {
        let mut child = start(command, Stdio::piped(), output, errors);
        let mut to = child.stdin.take().expect("its input");
        to.write_all(&self.input)
            .expect("an input that a pipe holds");
        drop(to);
        ended(child)
    }

    fn command(&self) -> Command {
        Command::new(self.program)
    }

    /// Does it print what it must print of no bytes?
    fn finds_nothing(&self, command: &mut Command, input: Stdio) -> bool {
        let child = start(command, input, Stdio::piped(), Stdio::piped());
        ended(child).is_some_and(|left| left.just_printed(&(self.prints)(b"")))
    }
}

fn closed_input(tried: &Tried) -> bool {
    tried.finds_nothing(&mut shell(tried.program, "exec \"$0\" <&-"), Stdio::null())
}

fn directory_as_input(tried: &Tried) -> bool {
    let directory = File::open("/").expect("a directory");
    tried.finds_nothing(&mut tried.command(), directory.into())
}

/// A socket whose other end leaves unread bytes when it closes: reading gives what was sent, then an error.
fn reset_input(tried: &Tried) -> bool {
    let (mut ours, mut theirs) = UnixStream::pair().expect("a socket");
    ours.write_all(&tried.input).expect("the input");
    theirs.write_all(b"unread").expect("bytes that stay unread");
    let input = OwnedFd::from(theirs).into();
    drop(ours);
    let child = start(&mut tried.command(), input, Stdio::piped(), Stdio::piped());
    ended(child).is_some_and(|left| left.just_printed(&(tried.prints)(&tried.input)))
}

fn full_output(tried: &Tried) -> bool {
    let left = tried.left(&mut tried.command(), full_device(), Stdio::piped());
    left.is_some_and(|left| left.told())
}

fn full_output_and_errors(tried: &Tried) -> bool {
    let left = tried.left(&mut tried.command(), full_device(), full_device());
    left.is_some_and(|left| left.signal.is_none())
}

fn closed_output(tried: &Tried) -> bool {
    let mut command = shell(tried.program, "exec \"$0\" >&-");
    let left = tried.left(&mut command, Stdio::null(), Stdio::piped());
    left.is_some_and(|left| left.told())
}

/// A program of today's kit ignores the signal: the write fails, and that is told.
fn pipe_that_nobody_reads(tried: &Tried) -> bool {
    let left = tried.left(&mut tried.command(), closed_pipe(), Stdio::piped());
    left.is_some_and(|left| left.told())
}

/// The same where whoever starts the program ignores the signal.
fn pipe_that_nobody_reads_no_signal(tried: &Tried) -> bool {
    let mut command = shell(tried.program, "trap '' PIPE; exec \"$0\"");
    let left = tried.left(&mut command, closed_pipe(), Stdio::piped());
    left.is_some_and(|left| left.told())
}

type Case = (&'static str, fn(&Tried) -> bool);

const CASES: [Case; 8] = [
    ("standard input closed", closed_input),
    ("a directory as standard input", directory_as_input),
    ("a read that fails behind the input", reset_input),
    ("output to a full device", full_output),
    ("output and errors to a full device", full_output_and_errors),
    ("standard output closed", closed_output),
    ("a pipe that nobody reads", pipe_that_nobody_reads),
    (
        "a pipe that nobody reads, the signal ignored",
        pipe_that_nobody_reads_no_signal,
    ),
];

/// The saving program on a sheet, and the loading program on a file, on a damaged one and on a piece of one.
fn all<'a>(save: &'a str, load: &'a str) -> Vec<Tried<'a>> {
    let whole = file::write(&sheet::left(SHEET));
    let mut damaged = whole.clone();
    damaged[0] ^= 1;
    let piece = whole[..300].to_vec();
    let loading = |input| Tried {
        program: load,
        input,
        prints: saving::load,
    };
    let mut all = vec![Tried {
        program: save,
        input: SHEET.to_vec(),
        prints: saving::save,
    }];
    all.extend([whole, damaged, piece].map(loading));
    all
}

/// Tries every case on both programs; answers how many failed.
pub fn compare(save: &str, load: &str) -> usize {
    let all = all(save, load);
    let mut failed = 0;
    for tried in &all {
        for (name, passes) in CASES {
            if !passes(tried) {
                println!("{}: {name}, {} bytes", tried.program, tried.input.len());
                failed += 1;
            }
        }
    }
    println!(
        "failed reads and writes of files: {} passed, {failed} failed",
        all.len() * CASES.len() - failed
    );
    failed
}
