//! Reads a checklist from words: how many files, the numbers of those that are sent and skipped, and of which file it
//! is asked whether it is good.

use crate::sheet::{self, Names};
use yeqontur::{Checklist, Refusal};

type Call = fn(&mut Checklist, u32) -> Result<(), Refusal>;

fn number(word: &str) -> Result<u32, String> {
    let read = sheet::number(word.as_bytes());
    read.ok_or_else(|| format!("not a file's number: {word}"))
}

/// The checklist of so many files, none of them marked.
fn opened(files: &str) -> Result<Checklist, String> {
    let count = sheet::number(files.as_bytes());
    let count = count.ok_or_else(|| format!("not a number of files: {files}"))?;
    Checklist::open(count).map_err(|refusal| format!("checklist {files} {refusal}"))
}

/// The checklist of `FILES sent NUMBER.. skipped NUMBER.. good NUMBER`, and the atom that is asked for: whether this
/// file is good or, where none is named, the last one, which is whether all is complete.
pub fn asked(words: &[String]) -> Result<(Checklist, u32), String> {
    let (marks, file) = match words {
        [marks @ .., word, file] if word == "good" => (marks, Some(file)),
        _ => (words, None),
    };
    let checklist = checklist(marks)?;
    let last = checklist.files();
    let asked = file.map_or(Ok(last), |file| number(file))?;
    let atoms = checklist.atoms(asked);
    let atoms = atoms.map_err(|refusal| format!("file {asked} {refusal}"))?;
    Ok((checklist, atoms.good))
}

/// The checklist of `FILES sent NUMBER.. skipped NUMBER..`, in any order of the marks.
fn checklist(words: &[String]) -> Result<Checklist, String> {
    let how_many = "behind checklist stands how many files it has";
    let (files, marks) = words.split_first().ok_or(how_many)?;
    let mut checklist = opened(files)?;
    let mut call: Option<Call> = None;
    for word in marks {
        match (word.as_str(), call) {
            ("sent", _) => call = Some(Checklist::sent),
            ("skipped", _) => call = Some(Checklist::skipped),
            ("good", _) => return Err("good and one file's number stand last".to_string()),
            (file, Some(mark)) => mark(&mut checklist, number(file)?)
                .map_err(|refusal| format!("file {file} {refusal}"))?,
            (_, None) => return Err(format!("sent or skipped is missing before {word}")),
        }
    }
    Ok(checklist)
}

/// What each of its atoms stands for.
pub fn names(checklist: &Checklist) -> Names {
    let atoms = checklist.table().labels().map(|(atom, _)| atom);
    atoms
        .filter_map(|atom| Some((atom, checklist.name(atom)?)))
        .collect()
}
