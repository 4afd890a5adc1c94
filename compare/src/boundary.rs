//! The proved engine's phases, as the static library exports them. The only unsafe code here.

use oracle::limits::SLOTS;
use oracle::table::RawTable;
use yeqontur::raw::Table;

/// The table with what its rules give each slot to keep, or as it came: 0 where it was labelled, else the
/// number of the question that its rules answer no (15 or 7).
#[repr(C)]
pub struct Labelled {
    pub refused: u32,
    pub table: Table,
}

/// How many layers there can be: no path has more negative steps than there are rules.
pub const LAYERS: usize = SLOTS + 1;

/// How many rounds each layer of the table's rules has, lowest first, 0 where no atom has the layer. Where the rules
/// answer a question no, `refused` is its number (15 or 7), else 0, and every number of rounds is 0.
#[repr(C)]
pub struct Rounds {
    pub refused: u32,
    pub rounds: [u16; LAYERS],
}

/// How many calls of a list were made, and the table after them.
#[repr(C)]
pub struct Replayed {
    pub count: usize,
    pub table: Table,
}

extern "C" {
    fn probe_sound(table: Table) -> u32;
    fn probe_labels(table: Table) -> Labelled;
    fn probe_rounds(table: Table) -> Rounds;
    fn probe_replay(
        words: *const u32,
        words_len: usize,
        files: *const u8,
        files_len: usize,
        answers: *mut u32,
        answers_len: usize,
    ) -> Replayed;
}

/// Question 15, answered by the proved engine.
pub fn sound(table: &Table) -> bool {
    // SAFETY: the function takes any table by value and keeps nothing.
    unsafe { probe_sound(*table) == 1 }
}

/// The labels of the table's rules, by the proved engine.
pub fn labels(table: &Table) -> Labelled {
    // SAFETY: as above.
    unsafe { probe_labels(*table) }
}

/// The rounds in which the proved engine finds the in atoms of the table's rules.
pub fn rounds(table: &Table) -> Rounds {
    // SAFETY: as above.
    unsafe { probe_rounds(*table) }
}

/// The calls of a list of numbers, made from the empty table by the proved engine; their answers as numbers. The files
/// that they load lie in the bytes beside the list.
pub fn replay(words: &[u32], files: &[u8], answers: &mut [u32]) -> Replayed {
    // SAFETY: each pointer has as many numbers or bytes behind it as the length beside it says, and the buffer is lent
    // to this call alone.
    unsafe {
        probe_replay(
            words.as_ptr(),
            words.len(),
            files.as_ptr(),
            files.len(),
            answers.as_mut_ptr(),
            answers.len(),
        )
    }
}

/// The slow engine's table as the library has it.
pub fn from_slow(slow: &RawTable) -> Table {
    let numbers = slow.to_numbers();
    Table {
        words: std::array::from_fn(|place| numbers[place]),
    }
}
