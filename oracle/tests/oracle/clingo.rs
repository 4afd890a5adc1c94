//! Admissible models against the answer sets of clingo. The gate runs this test where clingo is installed, and counts
//! nothing where it is not.

use oracle::generate::marks::any_marked;
use oracle::generate::programs::unlayered;
use oracle::model::admissible_models;
use oracle::random::Random;
use oracle::rules::{unmuted, Page};
use std::io::Write;
use std::process::{Command, Stdio};

/// The unmuted rules in the language of answer set tools.
fn written(program: &[Option<Page>]) -> String {
    unmuted(program)
        .map(|(_, rule)| {
            let positives = rule.positives.iter().map(|atom| format!("a{atom}"));
            let negatives = rule.negatives.iter().map(|atom| format!("not a{atom}"));
            let body: Vec<String> = positives.chain(negatives).collect();
            format!("a{} :- {}.\n", rule.head, body.join(", "))
        })
        .collect()
}

/// All answer sets, each ascending.
fn answer_sets(program: &str) -> Vec<Vec<u32>> {
    let mut clingo = Command::new("clingo")
        .args(["0", "--verbose=0", "--warn=none", "-"])
        .stdin(Stdio::piped())
        .stdout(Stdio::piped())
        .stderr(Stdio::null())
        .spawn()
        .expect("clingo");
    let mut input = clingo.stdin.take().expect("its input");
    input.write_all(program.as_bytes()).expect("it reads");
    drop(input);
    let output = clingo.wait_with_output().expect("it ends");
    let output = String::from_utf8(output.stdout).expect("a text");
    let mut lines: Vec<&str> = output.lines().collect();
    let verdict = lines.pop();
    assert!(
        matches!(verdict, Some("SATISFIABLE" | "UNSATISFIABLE")),
        "clingo says {output}"
    );
    let atom = |word: &str| word[1..].parse().expect(word);
    let set = |line: &str| sorted(line.split_whitespace().map(atom).collect());
    lines.into_iter().map(set).collect()
}

fn sorted<T: Ord>(mut list: Vec<T>) -> Vec<T> {
    list.sort();
    list
}

#[test]
#[ignore = "it asks clingo"]
fn admissible_models_are_the_answer_sets() {
    let mut random = Random::seeded(91);
    for _ in 0..200 {
        let program = unlayered(&mut random, 7, 10);
        let program = any_marked(&mut random, program);
        let models: Vec<Vec<u32>> = admissible_models(&program)
            .iter()
            .map(|m| m.ascending().collect())
            .collect();
        let expected = answer_sets(&written(&program));
        assert_eq!(sorted(models), sorted(expected), "{program:?}");
    }
}
