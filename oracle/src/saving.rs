//! The two programs of files: bytes in, bytes out.

use crate::file;
use crate::labels::Labelled;
use crate::limits::INPUT_BYTES;
use crate::sheet::{left, listing};

/// The whole of what the saving program prints for this sheet: the blocks of the table that it leaves, and nothing for
/// its lines, refused or not.
pub fn save(input: &[u8]) -> Vec<u8> {
    file::write(&left(input))
}

/// The whole of what the loading program prints for these blocks: what `L` prints of their table, or `refused` and the
/// number. Bytes past the cut are not there.
pub fn load(input: &[u8]) -> Vec<u8> {
    let read = &input[..input.len().min(INPUT_BYTES)];
    let printed = match file::read(read) {
        Ok(program) => listing(&Labelled::of(program)),
        Err(number) => format!("refused {number}\n"),
    };
    printed.into_bytes()
}
