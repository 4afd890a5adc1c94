//! Reads and writes that fail, on programs that answer a sheet line by line: the program ends, what it answered before
//! stays, and a write that failed is told in one line on standard error. A failed read is the input's end; nothing is
//! said of it. No exit status is promised.

use crate::program::write_pieces;
use std::fs::{File, OpenOptions};
use std::io::{Read, Write};
use std::os::fd::OwnedFd;
use std::os::unix::net::UnixStream;
use std::os::unix::process::ExitStatusExt;
use std::process::{Child, Command, Stdio};
use std::thread;
use std::time::{Duration, Instant};

/// How long a program may take to end.
const PATIENCE: Duration = Duration::from_secs(20);

/// Two lines, the last without its newline, and what is answered.
const SHEET: &[u8] = b"A 1 :\nL";
const ANSWERS: &[u8] = b"slot 0\n1 in 1 0\n";

/// What a program left behind: its output and its errors, where these are pipes, and the signal that ended it.
pub struct Left {
    pub printed: Vec<u8>,
    pub said: Vec<u8>,
    pub signal: Option<i32>,
}

impl Left {
    fn said_one_line(&self) -> bool {
        self.said.iter().filter(|&&byte| byte == b'\n').count() == 1 && self.said.ends_with(b"\n")
    }

    pub fn just_printed(&self, expected: &[u8]) -> bool {
        self.printed == expected && self.said.is_empty() && self.signal.is_none()
    }
}

fn bytes(from: Option<impl Read>) -> Vec<u8> {
    let mut read = Vec::new();
    from.map(|mut pipe| pipe.read_to_end(&mut read).expect("a pipe"));
    read
}

/// Waits for the end of a program that prints little; `None` if it does not end, and then it is killed.
pub fn ended(mut child: Child) -> Option<Left> {
    let start = Instant::now();
    while start.elapsed() < PATIENCE {
        if let Some(status) = child.try_wait().expect("a program") {
            return Some(Left {
                printed: bytes(child.stdout.take()),
                said: bytes(child.stderr.take()),
                signal: status.signal(),
            });
        }
        thread::sleep(Duration::from_millis(5));
    }
    child.kill().expect("a program");
    child.wait().expect("its end");
    None
}

/// The program as a shell starts it, after these words: to close a descriptor or to ignore a signal.
pub fn shell(program: &str, words: &str) -> Command {
    let mut command = Command::new("sh");
    command.arg("-c").arg(words).arg(program);
    command
}

pub fn start(command: &mut Command, input: Stdio, output: Stdio, errors: Stdio) -> Child {
    let command = command.stdin(input).stdout(output).stderr(errors);
    command.spawn().expect("a program")
}

/// Runs the command on many lines, each of which is answered. Its input stays open: only the failed write can end it.
fn with_lines(command: &mut Command, output: Stdio, errors: Stdio) -> Option<Left> {
    let mut child = start(command, Stdio::piped(), output, errors);
    let open = OwnedFd::from(child.stdin.take().expect("its input"));
    let to = open.try_clone().expect("its input").into();
    let lines = b"R 0\n".repeat(50_000);
    let writer = thread::spawn(move || write_pieces(to, &lines, &[65_536]));
    let left = ended(child);
    writer.join().expect("the lines");
    drop(open);
    left
}

pub fn full_device() -> Stdio {
    let device = OpenOptions::new().write(true).open("/dev/full");
    device.expect("a device that is full").into()
}

/// The writing end of a pipe that nobody reads.
pub fn closed_pipe() -> Stdio {
    let (reader, writer) = std::io::pipe().expect("a pipe");
    drop(reader);
    writer.into()
}

fn closed_input(program: &str) -> bool {
    let mut command = shell(program, "exec \"$0\" <&-");
    let child = start(&mut command, Stdio::null(), Stdio::piped(), Stdio::piped());
    ended(child).is_some_and(|left| left.just_printed(b""))
}

fn directory_as_input(program: &str) -> bool {
    let directory = File::open("/").expect("a directory");
    let mut command = Command::new(program);
    let child = start(
        &mut command,
        directory.into(),
        Stdio::piped(),
        Stdio::piped(),
    );
    ended(child).is_some_and(|left| left.just_printed(b""))
}

/// A socket whose other end leaves unread bytes when it closes: reading gives what was sent, then an error.
fn reset_input(program: &str) -> bool {
    let (mut ours, mut theirs) = UnixStream::pair().expect("a socket");
    ours.write_all(SHEET).expect("the sheet");
    theirs.write_all(b"unread").expect("bytes that stay unread");
    let mut command = Command::new(program);
    let input = OwnedFd::from(theirs).into();
    let mut child = start(&mut command, input, Stdio::piped(), Stdio::piped());
    let mut first = [0; 7];
    let from = child.stdout.as_mut().expect("its output");
    let answered = from.read_exact(&mut first).is_ok();
    drop(ours);
    answered && ended(child).is_some_and(|left| left.just_printed(&ANSWERS[first.len()..]))
}

fn full_output(program: &str) -> bool {
    let left = with_lines(&mut Command::new(program), full_device(), Stdio::piped());
    left.is_some_and(|left| left.said_one_line() && left.signal.is_none())
}

/// Two lines, the last without its newline, and the input ends: the write that failed is told once, not again for the
/// last line.
fn full_output_last_line(program: &str) -> bool {
    let mut command = Command::new(program);
    let mut child = start(&mut command, Stdio::piped(), full_device(), Stdio::piped());
    let mut to = child.stdin.take().expect("its input");
    to.write_all(SHEET).expect("the sheet");
    drop(to);
    ended(child).is_some_and(|left| left.said_one_line() && left.signal.is_none())
}

fn full_output_and_errors(program: &str) -> bool {
    let left = with_lines(&mut Command::new(program), full_device(), full_device());
    left.is_some_and(|left| left.signal.is_none())
}

fn closed_output(program: &str) -> bool {
    let mut command = shell(program, "exec \"$0\" >&-");
    let left = with_lines(&mut command, Stdio::null(), Stdio::piped());
    left.is_some_and(|left| left.said_one_line() && left.signal.is_none())
}

/// A program of today's kit ignores the signal: the write fails, and that is told.
fn pipe_that_nobody_reads(program: &str) -> bool {
    let left = with_lines(&mut Command::new(program), closed_pipe(), Stdio::piped());
    left.is_some_and(|left| left.said_one_line() && left.signal.is_none())
}

/// The same where whoever starts the program ignores the signal.
fn pipe_that_nobody_reads_no_signal(program: &str) -> bool {
    let mut command = shell(program, "trap '' PIPE; exec \"$0\"");
    let left = with_lines(&mut command, closed_pipe(), Stdio::piped());
    left.is_some_and(|left| left.said_one_line() && left.signal.is_none())
}

/// The reader takes an answer and leaves: it has that answer, and that the next one cannot be written is told.
fn reader_leaves(program: &str) -> bool {
    let mut command = Command::new(program);
    let mut child = start(&mut command, Stdio::piped(), Stdio::piped(), Stdio::piped());
    let mut to = child.stdin.take().expect("its input");
    let mut from = child.stdout.take().expect("its output");
    let mut answer = [0; 7];
    to.write_all(b"A 1 :\n").expect("a line");
    from.read_exact(&mut answer).expect("an answer");
    drop(from);
    to.write_all(b"L\n").expect("a line");
    let left = ended(child);
    answer == ANSWERS[..7] && left.is_some_and(|left| left.said_one_line() && left.signal.is_none())
}

type Case = (&'static str, fn(&str) -> bool);

const CASES: [Case; 10] = [
    ("standard input closed", closed_input),
    ("a directory as standard input", directory_as_input),
    ("a read that fails in the midst of a line", reset_input),
    ("output to a full device", full_output),
    (
        "output to a full device, and a last line",
        full_output_last_line,
    ),
    ("output and errors to a full device", full_output_and_errors),
    ("standard output closed", closed_output),
    ("a pipe that nobody reads", pipe_that_nobody_reads),
    (
        "a pipe that nobody reads, the signal ignored",
        pipe_that_nobody_reads_no_signal,
    ),
    ("a reader that leaves", reader_leaves),
];

/// Tries every case on each program; answers how many failed.
pub fn compare(programs: &[&str]) -> usize {
    let mut failed = 0;
    for program in programs {
        for (name, passes) in CASES {
            if !passes(program) {
                println!("{program}: {name}");
                failed += 1;
            }
        }
    }
    println!(
        "failed reads and writes: {} passed, {failed} failed",
        programs.len() * CASES.len() - failed
    );
    failed
}
