//! Saving: 15, then 11, then the blocks, in a lent buffer.

use super::blocks::{sums, write_word, Block, BLOCK, BODY, HEAD, MARK, PLACE, PLACES};
use super::calls::asked;
use super::{entries, slots, Slot, NEGATIVES, POSITIVES, STATE};
use yeqontur::raw::Table;

fn write_record(place: &mut [u8], slot: usize, rule: &Slot) {
    write_word(place, 0, slot as u16);
    write_word(place, 2, rule[super::HEAD]);
    place[4] = rule[POSITIVES] as u8 + if rule[STATE] == 2 { MARK } else { 0 };
    place[5] = rule[NEGATIVES] as u8;
    for (j, &x) in entries(rule).iter().enumerate() {
        write_word(place, 6 + 2 * j, x);
    }
}

/// Writes the next records, as many as a block has places. All behind them is zero, up to the sums.
fn write_block<'a>(
    block: &mut Block,
    index: usize,
    blocks: usize,
    records: &mut impl Iterator<Item = (usize, &'a Slot)>,
) {
    let mut count = 0;
    let places = block[HEAD..HEAD + PLACES * PLACE].chunks_exact_mut(PLACE);
    for (place, (slot, rule)) in places.zip(records) {
        write_record(place, slot, rule);
        count += 1;
    }
    block[HEAD + PLACE * count..BODY].fill(0);
    write_word(block, 0, index as u16);
    write_word(block, 2, blocks as u16);
    write_word(block, 4, count as u16);
    let (a, b) = sums(block);
    write_word(block, BODY, a);
    write_word(block, BODY + 2, b);
}

/// The rules with their slots.
fn held(table: &Table) -> impl Iterator<Item = (usize, &Slot)> {
    let slots = slots(table).iter().enumerate();
    slots.filter(|(_, slot)| slot[STATE] != 0)
}

/// Answers how many bytes were written; the error is the refusal's number, and with 11 how many bytes are needed.
pub fn save(table: &Table, bytes: &mut [u8]) -> Result<usize, (u32, usize)> {
    asked(table).map_err(|number| (number, 0))?;
    let blocks = held(table).count().div_ceil(PLACES).max(1);
    let needed = BLOCK * blocks;
    let file = bytes.get_mut(..needed).ok_or((11, needed))?;
    let mut records = held(table);
    for (index, block) in file.as_chunks_mut().0.iter_mut().enumerate() {
        write_block(block, index, blocks, &mut records);
    }
    Ok(needed)
}
