//! The program `why`, run in the repository's root.

use std::ffi::OsStr;
use std::io::Write;
use std::path::PathBuf;
use std::process::{Command, Output, Stdio};
use std::thread;

/// The root of the repository.
pub fn root() -> PathBuf {
    PathBuf::from(env!("CARGO_MANIFEST_DIR")).join("../..")
}

/// The program with these words.
pub fn why<W: AsRef<OsStr>>(words: impl IntoIterator<Item = W>) -> Command {
    let mut command = Command::new(env!("CARGO_BIN_EXE_why"));
    command.args(words).current_dir(root());
    command
}

/// What a program that ran came to: its status, and what it printed and told.
pub fn came_to(ran: Output) -> (Option<i32>, String, String) {
    let text = |bytes| String::from_utf8(bytes).expect("UTF-8");
    (ran.status.code(), text(ran.stdout), text(ran.stderr))
}

/// Runs it without any input.
pub fn run(command: &mut Command) -> (Option<i32>, String, String) {
    came_to(command.output().expect("a program"))
}

/// Runs it on this input.
pub fn run_on(command: &mut Command, input: &[u8]) -> (Option<i32>, String, String) {
    let command = command.stdin(Stdio::piped()).stdout(Stdio::piped());
    let mut child = command.stderr(Stdio::piped()).spawn().expect("a program");
    let mut to = child.stdin.take().expect("its input");
    thread::scope(|scope| {
        // It may have read enough before all is written.
        scope.spawn(move || to.write_all(input));
        came_to(child.wait_with_output().expect("its end"))
    })
}

/// What it prints, where it does what is asked and has nothing to tell.
pub fn printed(words: &[&str]) -> String {
    let (status, printed, told) = run(&mut why(words));
    assert_eq!((status, told.as_str()), (Some(0), ""), "{words:?}");
    printed
}
