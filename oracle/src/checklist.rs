//! The deposit checklist of request 106: its atoms and rules, and its calls over a raw table.
//!
//! Whether a table's rules are a checklist's is found as specification 8.4 says it: some number of files, with the marks
//! that the facts name, gives these rules and no others. A refused call leaves the table and the lent buffer as they
//! are; opening takes no table, and refused it hands back the empty one.

use crate::atoms::AtomSet;
use crate::calls::{add, ask_sound, lend, remove};
use crate::labels::Labelled;
use crate::limits::{FILES, SLOTS};
use crate::questions::Refusal;
use crate::rules::{held, muted, Page, Program, Rule};
use crate::table::RawTable;
use std::collections::HashSet;

/// What a fact says of a file.
#[derive(Clone, Copy, PartialEq, Eq, Debug)]
pub enum Mark {
    Sent,
    Skipped,
}

impl Mark {
    pub const BOTH: [Mark; 2] = [Mark::Sent, Mark::Skipped];

    /// The atom of the mark of a file; files count from 1.
    pub fn atom(self, file: u32) -> u32 {
        match self {
            Mark::Sent => 3 * file - 2,
            Mark::Skipped => 3 * file - 1,
        }
    }

    pub fn fact(self, file: u32) -> Rule {
        Rule::of(self.atom(file), &[], &[])
    }
}

/// The atom that says that a file is good. Atom 0 stands in for the file before the first.
pub fn good(file: u32) -> u32 {
    3 * file
}

/// What a slot of the frame holds: atom 0 as a fact in slot 0, and what makes file i good in slot i.
pub fn frame_rule(slot: u32) -> Rule {
    if slot == 0 {
        return Rule::of(0, &[], &[]);
    }
    Rule::of(
        good(slot),
        &[good(slot - 1), Mark::Sent.atom(slot)],
        &[Mark::Skipped.atom(slot)],
    )
}

/// How many files there are, and the marks that stand.
#[derive(Clone, PartialEq, Eq, Debug)]
pub struct Checklist {
    files: u32,
    marks: Vec<(Mark, u32)>,
}

impl Checklist {
    /// So many files, with those of their marks that are among the facts.
    fn marked(files: u32, facts: &AtomSet) -> Checklist {
        let all = (1..=files).flat_map(|file| Mark::BOTH.map(|mark| (mark, file)));
        let marks = all.filter(|&(mark, file)| facts.contains(mark.atom(file)));
        Checklist {
            files,
            marks: marks.collect(),
        }
    }

    /// How many rules the files and their marks give.
    fn size(&self) -> usize {
        1 + self.files as usize + self.marks.len()
    }

    /// The rules that they give, in no order.
    fn given(&self) -> HashSet<Rule> {
        let frame = (0..=self.files).map(frame_rule);
        let facts = self.marks.iter().map(|&(mark, file)| mark.fact(file));
        frame.chain(facts).collect()
    }

    /// Does the program hold these rules and no others, the frame in its slots?
    fn gives(&self, program: &Program) -> bool {
        let rules: Vec<Rule> = held(program).map(|(_, rule)| rule.clone()).collect();
        let framed = |slot: u32| program[slot as usize] == Some(Page::unmuted(frame_rule(slot)));
        // Most numbers of files give too few rules or too many, and need no further look.
        rules.len() == self.size()
            && rules.into_iter().collect::<HashSet<_>>() == self.given()
            && (0..=self.files).all(framed)
    }

    /// The checklist that the program is, if it is one. With a muted rule it is none.
    pub fn of(program: &Program) -> Option<Checklist> {
        if muted(program).next().is_some() {
            return None;
        }
        let facts = held(program).filter(|(_, rule)| rule.entries().next().is_none());
        let facts: AtomSet = facts.map(|(_, rule)| rule.head).collect();
        (1..=FILES)
            .map(|files| Checklist::marked(files, &facts))
            .find(|checklist| checklist.gives(program))
    }

    pub fn files(&self) -> u32 {
        self.files
    }

    pub fn stands(&self, mark: Mark, file: u32) -> bool {
        self.marks.contains(&(mark, file))
    }

    /// The files that are unsent or have a skip standing, ascending.
    pub fn missing(&self) -> Vec<u32> {
        let lacks =
            |&file: &u32| !self.stands(Mark::Sent, file) || self.stands(Mark::Skipped, file);
        (1..=self.files).filter(lacks).collect()
    }
}

/// Question 15: is the table sound, and are its rules a checklist's?
fn ask_checklist(table: &RawTable) -> Result<(Labelled, Checklist), Refusal> {
    let labelled = ask_sound(table)?;
    let checklist = Checklist::of(&labelled.program).ok_or(Refusal::TableUnsound)?;
    Ok((labelled, checklist))
}

/// Questions 15 and 20.
fn ask_file(table: &RawTable, file: u32) -> Result<(Labelled, Checklist), Refusal> {
    let (labelled, checklist) = ask_checklist(table)?;
    if !(1..=checklist.files).contains(&file) {
        return Err(Refusal::FileNotListed);
    }
    Ok((labelled, checklist))
}

/// Question 21; then the answer, that the opening was accepted, and the table that keeps the frame. A refusal comes
/// with the empty table.
pub fn open(files: u32) -> (Result<(), Refusal>, RawTable) {
    if !(1..=FILES).contains(&files) {
        return (Err(Refusal::WrongFileCount), RawTable::empty());
    }
    let frame = (0..=files).map(frame_rule);
    let mut program: Program = frame.map(|rule| Some(Page::unmuted(rule))).collect();
    program.resize(SLOTS, None);
    (Ok(()), RawTable::keeping(&Labelled::of(program)))
}

/// Adds the fact of a mark that does not stand yet.
fn set(table: &mut RawTable, mark: Mark, file: u32) -> Result<(), Refusal> {
    let (_, checklist) = ask_file(table, file)?;
    if checklist.stands(mark, file) {
        return Err(Refusal::MarkUnchanged);
    }
    add(table, mark.atom(file), &[], &[]).map(|_| ())
}

pub fn file_sent(table: &mut RawTable, file: u32) -> Result<(), Refusal> {
    set(table, Mark::Sent, file)
}

pub fn file_skipped(table: &mut RawTable, file: u32) -> Result<(), Refusal> {
    set(table, Mark::Skipped, file)
}

/// Removes the fact that the file is skipped, wherever it stands.
pub fn skip_withdrawn(table: &mut RawTable, file: u32) -> Result<(), Refusal> {
    let (labelled, _) = ask_file(table, file)?;
    let skip = Mark::Skipped.fact(file);
    let slot = held(&labelled.program).find(|(_, rule)| **rule == skip);
    remove(table, slot.ok_or(Refusal::MarkUnchanged)?.0)
}

/// The files that are unsent or have a skip standing, written and counted as justifications are.
pub fn missing(table: &RawTable, buffer: &mut [u32]) -> Result<u32, Refusal> {
    let (_, checklist) = ask_checklist(table)?;
    lend(&checklist.missing(), buffer)
}

/// Is the last file's good in?
pub fn complete(table: &RawTable) -> Result<bool, Refusal> {
    let (labelled, checklist) = ask_checklist(table)?;
    Ok(labelled.is_in(good(checklist.files)))
}
