//! The deposit checklist over the calls add, remove and label, with its questions in order; the error is the refusal's
//! number.

use super::calls::{add, label, remove, EMPTY};
use super::labels::relabel;
use super::sound::kept;
use super::{head, negatives, positives, slots, slots_mut};
use super::{Slot, FIRST_ENTRY, FREE, HEAD, NEGATIVES, POSITIVES, STATE};
use yeqontur::raw::{Table, SLOTS};

/// The most files of a checklist.
pub const MOST: usize = 60;

/// Does the slot hold the fact, not muted?
fn holds_fact(slot: &Slot, atom: usize) -> bool {
    slot[STATE] == 1 && head(slot) == atom && slot[POSITIVES] == 0 && slot[NEGATIVES] == 0
}

/// Does the slot hold the frame's rule of file i, from 1, not muted?
fn holds_file(slot: &Slot, i: u16) -> bool {
    slot[STATE] == 1
        && slot[HEAD] == 3 * i
        && positives(slot) == [3 * i - 3, 3 * i - 2]
        && negatives(slot) == [3 * i - 1]
}

/// Of how many files the frame stands from slot 0 on.
fn frame_run(slots: &[Slot; SLOTS]) -> usize {
    if !holds_fact(&slots[0], 0) {
        return 0;
    }
    let files = slots[1..=MOST].iter().zip(1..);
    files.take_while(|&(slot, i)| holds_file(slot, i)).count()
}

/// Is the slot free, or does it hold the fact of a mark of one of n files?
fn free_or_mark(slot: &Slot, n: usize) -> bool {
    let atom = head(slot);
    slot[STATE] == 0 || (atom < 3 * n && !atom.is_multiple_of(3) && holds_fact(slot, atom))
}

/// How many files the checklist has that the rules are; 15 where they are none.
fn file_count(table: &Table) -> Result<usize, u32> {
    let slots = slots(table);
    let n = frame_run(slots);
    if n > 0 && slots[n + 1..].iter().all(|slot| free_or_mark(slot, n)) {
        Ok(n)
    } else {
        Err(15)
    }
}

/// The rules' part of 15, and 20. Where 20 is the refusal the table is asked first whether it is sound; where the file
/// passes the call that follows asks it.
fn asked_file(table: &Table, file: u32) -> Result<(), u32> {
    let n = file_count(table)?;
    if (1..=n).contains(&(file as usize)) {
        return Ok(());
    }
    label(table, 0)?;
    Err(20)
}

fn add_mark(table: &mut Table, atom: u32) -> Result<(), u32> {
    match add(table, atom, &[], &[]) {
        Ok(_) => Ok(()),
        Err(5) => Err(22),
        Err(number) => Err(number),
    }
}

pub fn open(files: u32) -> Result<Table, u32> {
    if files == 0 || files as usize > MOST {
        return Err(21);
    }
    let mut table = EMPTY;
    let slots = slots_mut(&mut table);
    slots[0][STATE] = 1;
    for (i, slot) in (1..=files as u16).zip(&mut slots[1..]) {
        *slot = FREE;
        (slot[STATE], slot[HEAD], slot[POSITIVES], slot[NEGATIVES]) = (1, 3 * i, 2, 1);
        slot[FIRST_ENTRY..FIRST_ENTRY + 3].copy_from_slice(&[3 * i - 3, 3 * i - 2, 3 * i - 1]);
    }
    assert!(relabel(slots), "a frame has no loop");
    Ok(table)
}

pub fn file_sent(table: &mut Table, file: u32) -> Result<(), u32> {
    asked_file(table, file)?;
    add_mark(table, 3 * file - 2)
}

pub fn file_skipped(table: &mut Table, file: u32) -> Result<(), u32> {
    asked_file(table, file)?;
    add_mark(table, 3 * file - 1)
}

/// The mark stands in the slot that supports its atom.
pub fn skip_withdrawn(table: &mut Table, file: u32) -> Result<(), u32> {
    asked_file(table, file)?;
    let [state, _, slot] = label(table, 3 * file - 1)?;
    if state < 2 {
        return Err(22);
    }
    remove(table, slot.into())
}

/// Writes the files that are unsent or have a skip standing, ascending. Answers how many there are, or the refusal's
/// number and how many entries are needed.
pub fn missing(table: &Table, buffer: &mut [u32]) -> Result<usize, (u32, usize)> {
    let asked = file_count(table).and_then(|n| label(table, 0).map(|_| n));
    let n = asked.map_err(|number| (number, 0))?;
    let (flags, _) = kept(slots(table));
    let mut lacks = [false; MOST + 1];
    for i in 1..=n {
        lacks[i] = !flags[3 * i - 2] | flags[3 * i - 1];
    }
    let count = lacks.iter().filter(|&&lacks| lacks).count();
    if count > buffer.len() {
        return Err((11, count));
    }
    let files = (0..).zip(lacks).filter(|&(_, lacks)| lacks);
    for (entry, (file, _)) in buffer.iter_mut().zip(files) {
        *entry = file;
    }
    Ok(count)
}

pub fn complete(table: &Table) -> Result<bool, u32> {
    let n = file_count(table)?;
    let [state, ..] = label(table, 3 * n as u32)?;
    Ok(state == 2)
}
