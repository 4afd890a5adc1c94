//! The calls over a raw table; those of a checklist are in checklist.rs. A refused call leaves the table and the lent
//! buffer as they are; loading and opening a checklist take no table, and refused they hand back the empty one.

use crate::checklist;
use crate::file;
use crate::labels::{Label, Labelled};
use crate::limits::{ATOMS, ENTRIES, SLOTS};
use crate::loops::has_loop_through_negation;
use crate::questions::{rule_from, Refusal};
use crate::relations::{self, Spoiler};
use crate::rules::{held, holds, Page};
use crate::sound::sound_content;
use crate::table::RawTable;

/// What the spoiler call answers for a held rule.
#[derive(Clone, Copy, PartialEq, Eq, Debug)]
pub enum Validity {
    Valid,
    Spoiled(Spoiler),
    Muted,
}

/// What the rule call answers: the rule's numbers, its entries as they are kept, and 0 behind them.
#[derive(Clone, Copy, PartialEq, Eq, Debug)]
pub struct Written {
    pub head: u32,
    pub muted: bool,
    pub positives: u32,
    pub negatives: u32,
    pub entries: [u32; ENTRIES],
}

/// Question 15.
pub(crate) fn ask_sound(table: &RawTable) -> Result<Labelled, Refusal> {
    sound_content(table).ok_or(Refusal::TableUnsound)
}

/// Questions 8 and 9.
fn ask_held(labelled: &Labelled, slot: u32) -> Result<&Page, Refusal> {
    let slot_holds = labelled
        .program
        .get(slot as usize)
        .ok_or(Refusal::SlotTooLarge)?;
    slot_holds.as_ref().ok_or(Refusal::SlotFree)
}

/// Questions 15 and 10.
fn ask_atom(table: &RawTable, atom: u32) -> Result<Labelled, Refusal> {
    let labelled = ask_sound(table)?;
    if atom as usize >= ATOMS {
        return Err(Refusal::AtomTooLarge);
    }
    Ok(labelled)
}

/// Question 11; then the list is written from the start of the buffer and its count answered.
pub(crate) fn lend<T: Copy>(list: &[T], buffer: &mut [T]) -> Result<u32, Refusal> {
    let count = list.len() as u32;
    let room = buffer
        .get_mut(..list.len())
        .ok_or(Refusal::BufferTooShort { needed: count })?;
    room.copy_from_slice(list);
    Ok(count)
}

/// Adds the rule of these lists, in whatever order they come, unmuted, in the lowest free slot
/// and answers that slot.
pub fn add(
    table: &mut RawTable,
    head: u32,
    positives: &[u32],
    negatives: &[u32],
) -> Result<u32, Refusal> {
    let mut program = ask_sound(table)?.program;
    let rule = rule_from(head, positives, negatives)?;
    if holds(&program, &rule) {
        return Err(Refusal::SameRule);
    }
    let slot = (0..SLOTS)
        .find(|&slot| program[slot].is_none())
        .ok_or(Refusal::TableFull)?;
    program[slot] = Some(Page::unmuted(rule));
    if has_loop_through_negation(&program) {
        return Err(Refusal::NegativeCycle);
    }
    *table = RawTable::keeping(&Labelled::of(program));
    Ok(slot as u32)
}

/// Frees the slot.
pub fn remove(table: &mut RawTable, slot: u32) -> Result<(), Refusal> {
    let labelled = ask_sound(table)?;
    ask_held(&labelled, slot)?;
    let mut program = labelled.program;
    program[slot as usize] = None;
    *table = RawTable::keeping(&Labelled::of(program));
    Ok(())
}

/// Puts the rule of these lists, in whatever order they come, unmuted, in the slot, whose rule goes. No other slot may
/// hold the same, and there may be no loop through a negation once the rule is there.
pub fn replace(
    table: &mut RawTable,
    slot: u32,
    head: u32,
    positives: &[u32],
    negatives: &[u32],
) -> Result<(), Refusal> {
    let labelled = ask_sound(table)?;
    ask_held(&labelled, slot)?;
    let rule = rule_from(head, positives, negatives)?;
    let mut program = labelled.program;
    if held(&program).any(|(other, holds)| other != slot && *holds == rule) {
        return Err(Refusal::SameRule);
    }
    program[slot as usize] = Some(Page::unmuted(rule));
    if has_loop_through_negation(&program) {
        return Err(Refusal::NegativeCycle);
    }
    *table = RawTable::keeping(&Labelled::of(program));
    Ok(())
}

/// Unmutes the slot's rule if the mark is 0 and mutes it if it is any other number. What is set already may be set.
pub fn mute(table: &mut RawTable, slot: u32, mark: u32) -> Result<(), Refusal> {
    let labelled = ask_sound(table)?;
    let rule = ask_held(&labelled, slot)?.rule.clone();
    let mut program = labelled.program;
    program[slot as usize] = Some(match mark {
        0 => Page::unmuted(rule),
        _ => Page::muted(rule),
    });
    *table = RawTable::keeping(&Labelled::of(program));
    Ok(())
}

pub fn label(table: &RawTable, atom: u32) -> Result<Label, Refusal> {
    Ok(ask_atom(table, atom)?.label(atom))
}

/// Of each atom that occurs, ascending, four numbers: the atom, 1 if it is out or 2 if it is in, its depth and its
/// supporting slot, which are 0 if it is out.
pub fn labels(table: &RawTable, buffer: &mut [u32]) -> Result<u32, Refusal> {
    let labelled = ask_sound(table)?;
    let four = |(atom, label)| match label {
        Label::In { depth, slot } => [atom, 2, depth, slot],
        _ => [atom, 1, 0, 0],
    };
    let numbers: Vec<u32> = labelled.occurring().flat_map(four).collect();
    lend(&numbers, buffer)
}

/// What the slot holds.
pub fn rule(table: &RawTable, slot: u32) -> Result<Written, Refusal> {
    let labelled = ask_sound(table)?;
    let Page { rule, muted } = ask_held(&labelled, slot)?;
    let mut entries = [0; ENTRIES];
    for (place, entry) in entries.iter_mut().zip(rule.entries()) {
        *place = entry;
    }
    Ok(Written {
        head: rule.head,
        muted: *muted,
        positives: rule.positives.len() as u32,
        negatives: rule.negatives.len() as u32,
        entries,
    })
}

/// That the rule is muted, whatever its entries are; else whether it is valid, or what spoils it.
pub fn spoiler(table: &RawTable, slot: u32) -> Result<Validity, Refusal> {
    let labelled = ask_sound(table)?;
    let page = ask_held(&labelled, slot)?;
    if page.muted {
        return Ok(Validity::Muted);
    }
    let spoiler = relations::spoiler(&labelled, &page.rule);
    Ok(spoiler.map_or(Validity::Valid, Validity::Spoiled))
}

pub fn justifications(table: &RawTable, atom: u32, buffer: &mut [u32]) -> Result<u32, Refusal> {
    lend(
        &relations::justifications(&ask_atom(table, atom)?, atom),
        buffer,
    )
}

pub fn consequences(table: &RawTable, atom: u32, buffer: &mut [u32]) -> Result<u32, Refusal> {
    lend(
        &relations::consequences(&ask_atom(table, atom)?, atom),
        buffer,
    )
}

pub fn repercussions(table: &RawTable, atom: u32, buffer: &mut [u32]) -> Result<u32, Refusal> {
    lend(
        &relations::repercussions(&ask_atom(table, atom)?, atom),
        buffer,
    )
}

/// The reason's slots; question 12 comes before 11.
pub fn reason(table: &RawTable, atom: u32, buffer: &mut [u32]) -> Result<u32, Refusal> {
    let labelled = ask_atom(table, atom)?;
    let slots = relations::reason(&labelled, atom).ok_or(Refusal::AtomNotIn)?;
    lend(&slots, buffer)
}

/// Writes the file of the table's rules and marks and answers how many bytes it has.
pub fn save(table: &RawTable, buffer: &mut [u8]) -> Result<u32, Refusal> {
    lend(&file::write(&ask_sound(table)?.program), buffer)
}

/// The answer, that the file was accepted, and the table that keeps its rules and marks; or the refusal and
/// the empty table.
pub fn load(bytes: &[u8]) -> (Result<(), Refusal>, RawTable) {
    match file::read(bytes) {
        Ok(program) => (Ok(()), RawTable::keeping(&Labelled::of(program))),
        Err(number) => (Err(Refusal::of_file(number)), RawTable::empty()),
    }
}

/// Any call with its arguments, for lists of calls.
#[derive(Clone, PartialEq, Eq, Debug)]
pub enum Call {
    Add {
        head: u32,
        positives: Vec<u32>,
        negatives: Vec<u32>,
    },
    Remove {
        slot: u32,
    },
    Replace {
        slot: u32,
        head: u32,
        positives: Vec<u32>,
        negatives: Vec<u32>,
    },
    /// A mark of 0 unmutes, any other mutes.
    Mute {
        slot: u32,
        mark: u32,
    },
    Label {
        atom: u32,
    },
    Labels,
    Rule {
        slot: u32,
    },
    Spoiler {
        slot: u32,
    },
    Justifications {
        atom: u32,
    },
    Consequences {
        atom: u32,
    },
    Repercussions {
        atom: u32,
    },
    Reason {
        atom: u32,
    },
    Save,
    Load {
        bytes: Vec<u8>,
    },
    Open {
        files: u32,
    },
    FileSent {
        file: u32,
    },
    FileSkipped {
        file: u32,
    },
    SkipWithdrawn {
        file: u32,
    },
    Missing,
    Complete,
}

/// What is lent to a call: a buffer of numbers, and one of bytes for a file.
#[derive(Clone, PartialEq, Eq, Default, Debug)]
pub struct Lent {
    pub numbers: Vec<u32>,
    pub bytes: Vec<u8>,
}

/// What an accepted call answers.
#[derive(Clone, Copy, PartialEq, Eq, Debug)]
pub enum Answer {
    Slot(u32),
    Accepted,
    Label(Label),
    Rule(Written),
    Spoiler(Validity),
    Count(u32),
    Complete(bool),
}

/// The answer of a call that has no other to give.
fn accepted(answer: Result<(), Refusal>) -> Result<Answer, Refusal> {
    answer.map(|()| Answer::Accepted)
}

impl Call {
    /// What the call is called where calls are counted.
    pub fn name(&self) -> &'static str {
        match self {
            Call::Add { .. } => "add",
            Call::Remove { .. } => "remove",
            Call::Replace { .. } => "replace",
            Call::Mute { .. } => "mute",
            Call::Label { .. } => "label",
            Call::Labels => "labels",
            Call::Rule { .. } => "rule",
            Call::Spoiler { .. } => "spoiler",
            Call::Justifications { .. } => "justifications",
            Call::Consequences { .. } => "consequences",
            Call::Repercussions { .. } => "repercussions",
            Call::Reason { .. } => "reason",
            Call::Save => "save",
            Call::Load { .. } => "load",
            Call::Open { .. } => "open",
            Call::FileSent { .. } => "file sent",
            Call::FileSkipped { .. } => "file skipped",
            Call::SkipWithdrawn { .. } => "skip withdrawn",
            Call::Missing => "missing",
            Call::Complete => "complete",
        }
    }

    /// Makes the call. It leaves a buffer alone that it doesn't ask for. The table is the one
    /// that is handed back, where one is.
    pub fn make(&self, table: &mut RawTable, lent: &mut Lent) -> Result<Answer, Refusal> {
        let buffer = &mut lent.numbers;
        let mut handed_back = |(answer, after)| {
            *table = after;
            accepted(answer)
        };
        match self {
            Call::Load { bytes } => handed_back(load(bytes)),
            Call::Open { files } => handed_back(checklist::open(*files)),
            Call::Add {
                head,
                positives,
                negatives,
            } => add(table, *head, positives, negatives).map(Answer::Slot),
            Call::Remove { slot } => accepted(remove(table, *slot)),
            Call::Replace {
                slot,
                head,
                positives,
                negatives,
            } => accepted(replace(table, *slot, *head, positives, negatives)),
            Call::Mute { slot, mark } => accepted(mute(table, *slot, *mark)),
            Call::Label { atom } => label(table, *atom).map(Answer::Label),
            Call::Labels => labels(table, buffer).map(Answer::Count),
            Call::Rule { slot } => rule(table, *slot).map(Answer::Rule),
            Call::Spoiler { slot } => spoiler(table, *slot).map(Answer::Spoiler),
            Call::Justifications { atom } => {
                justifications(table, *atom, buffer).map(Answer::Count)
            }
            Call::Consequences { atom } => consequences(table, *atom, buffer).map(Answer::Count),
            Call::Repercussions { atom } => repercussions(table, *atom, buffer).map(Answer::Count),
            Call::Reason { atom } => reason(table, *atom, buffer).map(Answer::Count),
            Call::Save => save(table, &mut lent.bytes).map(Answer::Count),
            Call::FileSent { file } => accepted(checklist::file_sent(table, *file)),
            Call::FileSkipped { file } => accepted(checklist::file_skipped(table, *file)),
            Call::SkipWithdrawn { file } => accepted(checklist::skip_withdrawn(table, *file)),
            Call::Missing => checklist::missing(table, buffer).map(Answer::Count),
            Call::Complete => checklist::complete(table).map(Answer::Complete),
        }
    }
}
