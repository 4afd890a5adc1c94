//! Loading: 16, 17, 18, 19, each of the whole file before the next, then the labels. The error is the refusal's number.

use super::blocks::{sums, word, Block, BLOCK, BODY, HEAD, MARK, PLACE, PLACES};
use super::calls::EMPTY;
use super::labels::relabel;
use super::sound::{no_two_equal, well_formed};
use super::{slots, slots_mut, Slot, FIRST_ENTRY, FREE, NEGATIVES, POSITIVES, STATE};
use yeqontur::raw::{Table, ENTRIES, SLOTS};

/// The most blocks that a file has.
const BLOCKS: usize = 12;

/// 16: the blocks, if the bytes are 1 to 12 whole ones.
fn whole(bytes: &[u8]) -> Option<&[Block]> {
    let (blocks, rest) = bytes.as_chunks::<BLOCK>();
    (rest.is_empty() && (1..=BLOCKS).contains(&blocks.len())).then_some(blocks)
}

/// 17, of a block.
fn summed(block: &Block) -> bool {
    sums(block) == (word(block, BODY), word(block, BODY + 2))
}

/// How many records the block says that it has.
fn count(block: &Block) -> usize {
    word(block, 4) as usize
}

/// 18, of a block: 22 records in every one but the last, there at least 1, but a file of one block may hold none.
fn numbered(block: &Block, index: usize, blocks: usize) -> bool {
    let least = if index + 1 < blocks {
        PLACES
    } else {
        usize::from(blocks > 1)
    };
    word(block, 0) as usize == index
        && word(block, 2) as usize == blocks
        && (least..=PLACES).contains(&count(block))
}

/// 19, of the bytes behind a block's records.
fn filled(block: &Block) -> bool {
    let filler = &block[HEAD + PLACE * count(block)..BODY];
    filler.iter().all(|&x| x == 0)
}

fn rule_in(place: &[u8]) -> Slot {
    let mut slot = FREE;
    slot[STATE] = if place[4] < MARK { 1 } else { 2 };
    slot[super::HEAD] = word(place, 2);
    slot[POSITIVES] = (place[4] % MARK).into();
    slot[NEGATIVES] = place[5].into();
    for (j, entry) in slot[FIRST_ENTRY..FIRST_ENTRY + ENTRIES]
        .iter_mut()
        .enumerate()
    {
        *entry = word(place, 6 + 2 * j);
    }
    slot
}

/// 19, of the records one by one: each rule in its slot, if the slots ascend and every rule is well formed.
fn rules_in(blocks: &[Block]) -> Option<Table> {
    let mut table = EMPTY;
    let mut least = 0;
    for block in blocks {
        for place in block[HEAD..].chunks_exact(PLACE).take(count(block)) {
            let slot = word(place, 0) as usize;
            let rule = rule_in(place);
            if slot < least || slot >= SLOTS || !well_formed(&rule) {
                return None;
            }
            slots_mut(&mut table)[slot] = rule;
            least = slot + 1;
        }
    }
    Some(table)
}

pub fn load(bytes: &[u8]) -> Result<Table, u32> {
    let blocks = whole(bytes).ok_or(16_u32)?;
    if !blocks.iter().all(summed) {
        return Err(17);
    }
    let mut numbers = blocks.iter().enumerate();
    if !numbers.all(|(index, block)| numbered(block, index, blocks.len())) {
        return Err(18);
    }
    if !blocks.iter().all(filled) {
        return Err(19);
    }
    let mut table = rules_in(blocks).ok_or(19_u32)?;
    if !no_two_equal(slots(&table)) || !relabel(slots_mut(&mut table)) {
        return Err(19);
    }
    Ok(table)
}
