//! clingo on the rules of a table, where it is installed: a process for each run, so its start is part of its time.

use crate::clock::microseconds;
use std::collections::BTreeSet;
use std::io::Write;
use std::process::{Command, Stdio};
use yeqontur::Table;

/// The rules as clingo reads them.
fn program(table: &Table) -> String {
    let mut text = String::new();
    for rule in table.rules() {
        let positives = rule.positives.iter().map(|x| format!("a{x}"));
        let negatives = rule.negatives.iter().map(|x| format!("not a{x}"));
        let body: Vec<String> = positives.chain(negatives).collect();
        let arrow = if body.is_empty() { "" } else { " :- " };
        text += &format!("a{}{arrow}{}.\n", rule.head, body.join(", "));
    }
    text
}

/// What clingo prints of the program; none where it is not installed.
fn run(program: &str, models: &str) -> Option<String> {
    let mut child = Command::new("clingo")
        .args(["--verbose=0", models, "-"])
        .stdin(Stdio::piped())
        .stdout(Stdio::piped())
        .stderr(Stdio::null())
        .spawn()
        .ok()?;
    child.stdin.take()?.write_all(program.as_bytes()).ok()?;
    String::from_utf8(child.wait_with_output().ok()?.stdout).ok()
}

/// clingo finds one model, and it is the in atoms.
fn agrees(table: &Table, printed: &str) -> bool {
    let held = table.labels().filter(|(_, label)| label.is_in());
    let held: BTreeSet<String> = held.map(|(atom, _)| format!("a{atom}")).collect();
    match printed.lines().collect::<Vec<_>>()[..] {
        [model, "SATISFIABLE"] => held == model.split_whitespace().map(String::from).collect(),
        _ => false,
    }
}

/// The least time of a run in microseconds, once its answer is compared with all models there are.
pub fn time(table: &Table) -> Option<f64> {
    let program = program(table);
    assert!(agrees(table, &run(&program, "0")?), "clingo differs");
    let runs = (0..40).map(|_| microseconds(1, || run(&program, "1")));
    Some(runs.fold(f64::MAX, f64::min))
}
