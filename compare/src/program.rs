//! A program run on bytes that come in pieces.

use oracle::random::Random;
use std::fs;
use std::io::{ErrorKind, Read, Write};
use std::process::{Child, ChildStdin, Command, Output, Stdio};
use std::thread;

/// Lengths of the pieces in which an input comes: all at once, or cut in the midst of lines and records.
const PIECES: [&[usize]; 5] = [
    &[usize::MAX],
    &[65536],
    &[4096, 1],
    &[119, 120, 121, 122],
    &[1, 2, 3, 7, 1000],
];

/// Short inputs may come byte by byte; long ones would take too long.
pub fn pieces(random: &mut Random, length: usize) -> &'static [usize] {
    if length > 20_000 {
        return PIECES[random.below(3)];
    }
    PIECES[random.below(5)]
}

/// Keeps an input as a file of that name, and answers where.
pub fn keep(name: &str, input: &[u8]) -> String {
    let kept = std::env::temp_dir().join(name);
    fs::write(&kept, input).expect("a file for the input");
    kept.display().to_string()
}

/// Starts the program with both ends of it in hand. Its standard error goes to ours, so that a word there is seen.
pub fn start(program: &str) -> Child {
    Command::new(program)
        .stdin(Stdio::piped())
        .stdout(Stdio::piped())
        .stderr(Stdio::piped())
        .spawn()
        .unwrap_or_else(|error| panic!("{program}: {error}"))
}

/// Writes the pieces one after another. A program that has read enough may close its end first.
pub fn write_pieces(mut to: ChildStdin, input: &[u8], lengths: &[usize]) {
    let (mut from, mut lengths) = (0, lengths.iter().cycle());
    while from < input.len() {
        let end = input.len().min(from + lengths.next().expect("a length"));
        match to.write_all(&input[from..end]) {
            Ok(()) => from = end,
            Err(error) if error.kind() == ErrorKind::BrokenPipe => return,
            Err(error) => panic!("the program's input: {error}"),
        }
    }
}

/// What the program prints for an input that comes in pieces of these lengths, and what it says on standard error.
pub fn run(program: &str, input: &[u8], lengths: &[usize]) -> (Vec<u8>, Vec<u8>) {
    let mut child = start(program);
    let to = child.stdin.take().expect("its input");
    let (mut printed, mut said) = (Vec::new(), Vec::new());
    thread::scope(|scope| {
        scope.spawn(|| write_pieces(to, input, lengths));
        let mut from = child.stdout.take().expect("its output");
        from.read_to_end(&mut printed).expect("its output");
    });
    let mut errors = child.stderr.take().expect("its errors");
    errors.read_to_end(&mut said).expect("its errors");
    child.wait().expect("its end");
    (printed, said)
}

/// What a command comes to on an input that is handed in all at once, with all that it prints and says.
pub fn output(command: &mut Command, input: &[u8]) -> Output {
    let command = command.stdin(Stdio::piped()).stdout(Stdio::piped());
    let mut child = command.stderr(Stdio::piped()).spawn().expect("a program");
    let to = child.stdin.take().expect("its input");
    thread::scope(|scope| {
        scope.spawn(|| write_pieces(to, input, &[usize::MAX]));
        child.wait_with_output().expect("its end")
    })
}
