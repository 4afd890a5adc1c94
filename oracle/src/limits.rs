//! The limits of the table (specification 1.5), in one place.

/// How many slots a table has; slot numbers are below it.
pub const SLOTS: usize = 256;

/// How many atoms there are; atom numbers are below it.
pub const ATOMS: usize = 256;

/// How many entries both lists of a rule have together at most.
pub const ENTRIES: usize = 8;

/// How many files a checklist has at most.
pub const FILES: u32 = 60;

/// How many bytes a line of a sheet has at most, its newline not counted.
pub const LINE_BYTES: usize = 120;

/// How many bytes of its input a program reads at most, as if the input ended there. crates/sheet_meaning/specs/Sheets.antt
/// says the same: `MOST`, and `cut`, the part of an input that is read.
pub const INPUT_BYTES: usize = 1_048_576;

/// How many bytes a block of a file has.
pub const BLOCK_BYTES: usize = 512;

/// How many records a block holds at most.
pub const BLOCK_RECORDS: usize = 22;

/// How many blocks a file has at most.
pub const BLOCKS: usize = 12;
