//! What can be wrong with the bytes of a file: lengths, sums, numbers of the header, filler.

use crate::file::sums;
use crate::limits::{BLOCKS, BLOCK_BYTES, BLOCK_RECORDS};
use crate::random::Random;
use std::ops::Range;

/// Where the numbers of a header stand.
const INDEX: usize = 0;
const BLOCK_COUNT: usize = 2;
const RECORD_COUNT: usize = 4;

/// Where the places begin, how many bytes each has, and where the last ends.
const PLACES: usize = 6;
const PLACE_BYTES: usize = 22;
const PLACES_END: usize = 490;

/// Where the sums begin.
const SUMS: usize = 508;

/// The start of one of the whole blocks, if there is one.
fn any_block(random: &mut Random, bytes: &[u8]) -> Option<usize> {
    let count = bytes.len() / BLOCK_BYTES;
    (count > 0).then(|| BLOCK_BYTES * random.below(count))
}

fn number_at(bytes: &[u8], at: usize) -> u16 {
    u16::from_le_bytes([bytes[at], bytes[at + 1]])
}

fn put_number(bytes: &mut [u8], at: usize, number: u16) {
    bytes[at..at + 2].copy_from_slice(&number.to_le_bytes());
}

fn random_bytes(random: &mut Random, count: usize) -> Vec<u8> {
    (0..count).map(|_| random.word() as u8).collect()
}

/// A byte that is not the one that stood: another bit, a neighbour, or any.
fn other_byte(random: &mut Random, stood: u8) -> u8 {
    match random.below(3) {
        0 => stood ^ 1 << random.below(8),
        1 => stood.wrapping_add(1),
        _ => stood.wrapping_add(random.between(1, 255) as u8),
    }
}

pub fn bit_flipped(random: &mut Random, mut bytes: Vec<u8>) -> Vec<u8> {
    if !bytes.is_empty() {
        let place = random.below(bytes.len());
        bytes[place] ^= 1 << random.below(8);
    }
    bytes
}

pub fn byte_changed(random: &mut Random, mut bytes: Vec<u8>) -> Vec<u8> {
    if !bytes.is_empty() {
        let place = random.below(bytes.len());
        bytes[place] = other_byte(random, bytes[place]);
    }
    bytes
}

/// A and B from other starts, with another order of steps and other remainders.
fn running(bytes: &[u8], start: (u32, u32), b_first: bool, modulus: u32) -> [u16; 2] {
    let (mut a, mut b) = start;
    for &byte in bytes {
        let before = a;
        a = (a + u32::from(byte)) % modulus;
        b = (b + if b_first { before } else { a }) % modulus;
    }
    [a as u16, b as u16]
}

/// Sums that a reader of the recipe may come to by mistake, or that are off by a little.
fn mistaken(random: &mut Random, summed: &[u8]) -> [u16; 2] {
    let [a, b] = sums(summed);
    match random.below(10) {
        0 => running(summed, (0, 0), false, 65_536),
        1 => running(summed, (1, 1), false, 65_536),
        2 => running(summed, (1, 0), true, 65_536),
        3 => running(summed, (1, 0), false, 65_521),
        4 => running(summed, (1, 0), false, 65_535),
        5 => [b, a],
        6 => [a.swap_bytes(), b.swap_bytes()],
        7 => [a, b.wrapping_add(1 << random.below(16))],
        8 => [a.wrapping_add(1 << random.below(16)), b],
        _ => [0, 0],
    }
}

pub fn other_sums(random: &mut Random, mut bytes: Vec<u8>) -> Vec<u8> {
    if let Some(block) = any_block(random, &bytes) {
        let [a, b] = mistaken(random, &bytes[block..block + SUMS]);
        put_number(&mut bytes, block + SUMS, a);
        put_number(&mut bytes, block + SUMS + 2, b);
    }
    bytes
}

pub fn blocks_swapped(random: &mut Random, bytes: Vec<u8>) -> Vec<u8> {
    let mut blocks: Vec<Vec<u8>> = bytes.chunks(BLOCK_BYTES).map(<[u8]>::to_vec).collect();
    if blocks.len() > 1 {
        let one = random.below(blocks.len());
        let other = (one + random.between(1, blocks.len() - 1)) % blocks.len();
        blocks.swap(one, other);
    }
    blocks.concat()
}

pub fn cut(random: &mut Random, mut bytes: Vec<u8>) -> Vec<u8> {
    let whole_blocks = bytes.len() / BLOCK_BYTES;
    let length = match random.below(4) {
        0 => random.below(bytes.len().max(1)),
        1 => bytes.len().saturating_sub(1),
        2 => BLOCK_BYTES * random.below(whole_blocks.max(1)),
        _ => BLOCK_BYTES * whole_blocks.saturating_sub(1),
    };
    bytes.truncate(length);
    bytes
}

pub fn lengthened(random: &mut Random, mut bytes: Vec<u8>) -> Vec<u8> {
    let more = match random.below(6) {
        0 => vec![0],
        1 => random_bytes(random, 1),
        2 => vec![0; BLOCK_BYTES],
        3 => random_bytes(random, BLOCK_BYTES),
        4 => bytes[bytes.len().saturating_sub(BLOCK_BYTES)..].to_vec(),
        _ => vec![0; BLOCK_BYTES * random.between(1, 20)],
    };
    bytes.extend(more);
    bytes
}

pub fn doubled(_: &mut Random, mut bytes: Vec<u8>) -> Vec<u8> {
    bytes.extend_from_within(..);
    bytes
}

pub fn garbage(random: &mut Random, _: Vec<u8>) -> Vec<u8> {
    let length = BLOCK_BYTES * random.between(1, BLOCKS);
    random_bytes(random, length)
}

pub fn garbage_of_other_length(random: &mut Random, _: Vec<u8>) -> Vec<u8> {
    let near = BLOCK_BYTES * random.between(0, BLOCKS + 1);
    let length = match random.below(4) {
        0 => near + 1,
        1 => near + BLOCK_BYTES - 1,
        2 => BLOCK_BYTES * (BLOCKS + random.between(1, 20)),
        _ => near + random.between(1, BLOCK_BYTES - 1),
    };
    random_bytes(random, length)
}

/// Another number than the one that stood: a neighbour, the same low byte, the largest, or one of those.
fn other_number(random: &mut Random, stood: u16, those: &[u16]) -> u16 {
    let number = match random.below(6) {
        0 => stood.wrapping_add(1),
        1 => stood.wrapping_sub(1),
        2 => stood + 256,
        3 => 65_535,
        _ => *random.pick(those),
    };
    if number == stood {
        stood + 1
    } else {
        number
    }
}

pub fn wrong_index(random: &mut Random, mut bytes: Vec<u8>) -> Vec<u8> {
    if let Some(block) = any_block(random, &bytes) {
        let others: [u16; 13] = std::array::from_fn(|index| index as u16);
        let index = other_number(random, number_at(&bytes, block + INDEX) & 255, &others);
        put_number(&mut bytes, block + INDEX, index);
    }
    bytes
}

/// In one block, or the same in all.
pub fn wrong_block_count(random: &mut Random, mut bytes: Vec<u8>) -> Vec<u8> {
    if let Some(block) = any_block(random, &bytes) {
        let others: [u16; 14] = std::array::from_fn(|count| count as u16);
        let count = other_number(
            random,
            number_at(&bytes, block + BLOCK_COUNT) & 255,
            &others,
        );
        let everywhere = random.percent(40);
        for start in (0..bytes.len() / BLOCK_BYTES).map(|place| BLOCK_BYTES * place) {
            if everywhere || start == block {
                put_number(&mut bytes, start + BLOCK_COUNT, count);
            }
        }
    }
    bytes
}

pub fn wrong_record_count(random: &mut Random, mut bytes: Vec<u8>) -> Vec<u8> {
    if let Some(block) = any_block(random, &bytes) {
        let others = [0, 1, 21, 22, 23, 44, 256];
        let stood = number_at(&bytes, block + RECORD_COUNT) & 255;
        let count = other_number(random, stood, &others);
        put_number(&mut bytes, block + RECORD_COUNT, count);
    }
    bytes
}

/// The last record of a block before the last is gone.
pub fn short_block(random: &mut Random, mut bytes: Vec<u8>) -> Vec<u8> {
    let before_last = bytes.len().saturating_sub(BLOCK_BYTES);
    if let Some(block) = any_block(random, &bytes[..before_last]) {
        put_number(&mut bytes, block + RECORD_COUNT, BLOCK_RECORDS as u16 - 1);
        bytes[block + PLACES_END - PLACE_BYTES..block + PLACES_END].fill(0);
    }
    bytes
}

/// One more block, with its index, of no records; every block counts it.
pub fn empty_last_block(_: &mut Random, mut bytes: Vec<u8>) -> Vec<u8> {
    let last = bytes.len() / BLOCK_BYTES;
    bytes.resize((last + 1) * BLOCK_BYTES, 0);
    put_number(&mut bytes, last * BLOCK_BYTES + INDEX, last as u16);
    for block in 0..=last {
        put_number(
            &mut bytes,
            block * BLOCK_BYTES + BLOCK_COUNT,
            last as u16 + 1,
        );
    }
    bytes
}

/// Sets one byte of the range to another number than it is, if there is one.
fn set_in(random: &mut Random, bytes: &mut [u8], range: Range<usize>) {
    if !range.is_empty() {
        let place = random.between(range.start, range.end - 1);
        bytes[place] = other_byte(random, bytes[place]);
    }
}

/// Only a last block has unused places, and not every one.
pub fn unused_place(random: &mut Random, mut bytes: Vec<u8>) -> Vec<u8> {
    if let Some(block) = bytes.len().checked_sub(BLOCK_BYTES) {
        let used = usize::from(number_at(&bytes, block + RECORD_COUNT)).min(BLOCK_RECORDS);
        let unused = PLACES + PLACE_BYTES * used..PLACES_END;
        set_in(random, &mut bytes[block..], unused);
    }
    bytes
}

pub fn behind_places(random: &mut Random, mut bytes: Vec<u8>) -> Vec<u8> {
    if let Some(block) = any_block(random, &bytes) {
        set_in(random, &mut bytes[block..], PLACES_END..SUMS);
    }
    bytes
}
