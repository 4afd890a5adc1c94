//! What a Rust program expects of any crate: traits, threads, errors, words and a version.

use std::collections::HashSet;
use std::error::Error;
use std::fmt::{Debug, Display};
use std::hash::Hash;
use yeqontur::raw;
use yeqontur::{
    Atoms, Because, Checklist, FileState, Label, List, LoadError, Refusal, Rule, Side, Stop,
    Stopped, Table, Validity, Why, VERSION,
};

fn goes_to_threads<T: Send + Sync + 'static>() {}
fn is_a_value<T: Clone + Eq + Hash + Debug + Send + Sync + 'static>() {}
fn is_plain<T: Copy + Eq + Hash + Debug + Send + Sync + 'static>() {}
fn prints<T: Display>() {}
fn is_an_error<T: Error + Send + Sync + 'static>() {}

/// The program builds only if it is so.
#[test]
fn types_have_the_usual_traits() {
    is_a_value::<Table>();
    is_a_value::<Checklist>();
    is_a_value::<Rule>();
    is_a_value::<Why>();
    is_a_value::<Because>();
    is_a_value::<Stopped>();
    is_a_value::<Stop>();
    is_plain::<Label>();
    is_plain::<Side>();
    is_plain::<Validity>();
    is_plain::<Refusal>();
    is_plain::<FileState>();
    is_plain::<Atoms>();
    is_plain::<List>();
    is_plain::<raw::Table>();
    is_plain::<raw::Change>();
    is_plain::<raw::Accepted>();
    is_plain::<raw::LabelAnswer>();
    is_plain::<raw::RuleAnswer>();
    is_plain::<raw::SpoilerAnswer>();
    is_plain::<raw::ListAnswer>();
    is_plain::<raw::Completeness>();
    goes_to_threads::<LoadError>();
}

#[test]
fn what_a_person_reads_is_printed() {
    prints::<Label>();
    prints::<Side>();
    prints::<Validity>();
    prints::<Stop>();
    prints::<Rule>();
    prints::<FileState>();
    prints::<Checklist>();
    is_an_error::<Refusal>();
    is_an_error::<LoadError>();
}

/// No two refusals are equal, or read alike.
#[test]
fn refusals_differ() {
    let all = Refusal::ALL;
    assert_eq!(all.iter().collect::<HashSet<_>>().len(), all.len());
    let sentences: HashSet<String> = all.iter().map(Refusal::to_string).collect();
    assert_eq!(sentences.len(), all.len());
}

/// Equal tables are one key of a map.
#[test]
fn tables_and_labels_are_keys() {
    let mut one = Table::new();
    assert_eq!(one.add(1, &[2, 3], &[]), Ok(0));
    let mut other = Table::default();
    assert_eq!(other.add(1, &[3, 2], &[]), Ok(0));
    assert_eq!(HashSet::from([one.clone(), other, Table::new()]).len(), 2);
    let labels: HashSet<Label> = one.labels().map(|(_, label)| label).collect();
    assert_eq!(labels, [Label::Out].into());
}

#[test]
fn the_version_is_that_of_the_header() {
    let header = include_str!("../../../include/yeqontur.h");
    let text = format!("\n#define YEQONTUR_VERSION_TEXT \"{VERSION}\"\n");
    assert!(header.contains(&text));
    let parts = VERSION
        .split('.')
        .map(|part| part.parse().expect("a number"));
    let number = parts.fold(0, |number: u32, part: u32| 100 * number + part);
    assert!(header.contains(&format!("\n#define YEQONTUR_VERSION {number}\n")));
}
