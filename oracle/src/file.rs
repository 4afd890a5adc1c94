//! A table on disk: the records of its rules and their marks in blocks, numbers low byte first.
//!
//! A file is made from its list of records, cut into blocks. A file that is read is first taken apart, whatever it
//! says, and then asked one question after another, each over all blocks or all records. Sums are whole numbers, of
//! which the remainder is taken at the end.

use crate::limits::{ATOMS, BLOCKS, BLOCK_BYTES, BLOCK_RECORDS, ENTRIES, SLOTS};
use crate::loops::has_loop_through_negation;
use crate::rules::{Page, Program, Rule};
use std::collections::{BTreeSet, HashSet};

/// Index, number of blocks and number of records.
const HEADER_BYTES: usize = 6;

/// Slot, head, both counts and the entries.
const RECORD_BYTES: usize = 6 + 2 * ENTRIES;

/// What the top bit of a positive count adds to it: the mark of a muted rule.
pub const MARK: u8 = 128;

/// The bytes that A and B are of: all before them.
const SUMMED_BYTES: usize = BLOCK_BYTES - 4;

/// What a place of a block says, of a rule or not.
#[derive(Clone, PartialEq, Eq, Debug)]
pub struct Record {
    pub slot: u16,
    pub head: u16,
    /// How many positives there are, and 128 more if the rule is muted.
    pub positives: u8,
    pub negatives: u8,
    /// The positive entries, the negative ones right behind them, then zeros.
    pub entries: [u16; ENTRIES],
}

impl Record {
    /// The record of a slot, its rule, which must pass questions 1 to 3, and the rule's mark.
    fn of(slot: u32, Page { rule, muted }: &Page) -> Record {
        let mark = if *muted { MARK } else { 0 };
        let mut entries = [0; ENTRIES];
        for (place, entry) in entries.iter_mut().zip(rule.entries()) {
            *place = entry as u16;
        }
        Record {
            slot: slot as u16,
            head: rule.head as u16,
            positives: rule.positives.len() as u8 + mark,
            negatives: rule.negatives.len() as u8,
            entries,
        }
    }

    fn written(&self) -> Vec<u8> {
        let mut bytes = [self.slot, self.head].map(u16::to_le_bytes).concat();
        bytes.extend([self.positives, self.negatives]);
        bytes.extend(self.entries.map(u16::to_le_bytes).concat());
        bytes
    }

    fn read(bytes: &[u8]) -> Record {
        let (numbers, entries) = bytes.split_at(6);
        Record {
            slot: number(&numbers[..2]),
            head: number(&numbers[2..4]),
            positives: numbers[4],
            negatives: numbers[5],
            entries: std::array::from_fn(|place| number(&entries[2 * place..][..2])),
        }
    }

    /// Is the top bit of the positive count set?
    pub fn muted(&self) -> bool {
        self.positives >= MARK
    }

    /// How many entries each list has by the counts; the other seven bits are the positive one.
    pub fn counts(&self) -> [usize; 2] {
        [self.positives % MARK, self.negatives].map(usize::from)
    }

    /// Both lists, as far as there are entries for them, and the entries behind.
    fn parted(&self) -> (Vec<u32>, Vec<u32>, Vec<u32>) {
        let [positives, negatives] = self.counts();
        let mut entries = self.entries.iter().map(|&entry| u32::from(entry));
        let positives = entries.by_ref().take(positives).collect();
        let negatives = entries.by_ref().take(negatives).collect();
        (positives, negatives, entries.collect())
    }

    fn lists(&self) -> [Vec<u32>; 2] {
        let (positives, negatives, _) = self.parted();
        [positives, negatives]
    }

    fn rule(&self) -> Rule {
        let [positives, negatives] = self.lists();
        Rule::of(self.head.into(), &positives, &negatives)
    }
}

fn number(pair: &[u8]) -> u16 {
    u16::from(pair[0]) + 256 * u16::from(pair[1])
}

/// A and B of these bytes. A is 1 and all of them. B is all that A has been, one time for each byte: the 1 as often as
/// there are bytes, and each byte as often as there are bytes from it on.
pub fn sums(bytes: &[u8]) -> [u16; 2] {
    let count = bytes.len() as u64;
    let bytes = || bytes.iter().map(|&byte| u64::from(byte));
    let a = 1 + bytes().sum::<u64>();
    let b = count
        + (0..count)
            .zip(bytes())
            .map(|(i, byte)| (count - i) * byte)
            .sum::<u64>();
    [a, b].map(|sum| (sum % 65_536) as u16)
}

/// Gives every whole block of the bytes the sums that it must have.
pub fn put_sums_right(bytes: &mut [u8]) {
    for block in bytes.chunks_exact_mut(BLOCK_BYTES) {
        let (summed, stated) = block.split_at_mut(SUMMED_BYTES);
        stated.copy_from_slice(&sums(summed).map(u16::to_le_bytes).concat());
    }
}

/// The blocks of these records, whatever they say; one block if there are none.
pub fn blocks(records: &[Record]) -> Vec<u8> {
    let mut parts: Vec<&[Record]> = records.chunks(BLOCK_RECORDS).collect();
    if parts.is_empty() {
        parts.push(&[]);
    }
    let mut bytes = Vec::new();
    for (index, part) in parts.iter().enumerate() {
        let header = [index, parts.len(), part.len()];
        bytes.extend(header.map(|number| (number as u16).to_le_bytes()).concat());
        bytes.extend(part.iter().flat_map(Record::written));
        bytes.resize((index + 1) * BLOCK_BYTES, 0);
    }
    put_sums_right(&mut bytes);
    bytes
}

/// The records of the rules, ascending by slot.
pub fn records(program: &[Option<Page>]) -> Vec<Record> {
    let slots = (0..).zip(program);
    let held = slots.filter_map(|(slot, holds)| Some((slot, holds.as_ref()?)));
    held.map(|(slot, page)| Record::of(slot, page)).collect()
}

/// The file of the rules and their marks. Each rule must pass questions 1 to 3.
pub fn write(program: &[Option<Page>]) -> Vec<u8> {
    blocks(&records(program))
}

/// What a block says.
struct Block {
    index: u16,
    blocks: u16,
    records: u16,
    places: Vec<Record>,
    /// The bytes between the last place and the sums.
    rest: Vec<u8>,
    stated: [u16; 2],
    summed: [u16; 2],
}

impl Block {
    fn read(bytes: &[u8]) -> Block {
        let (bytes, stated) = bytes.split_at(SUMMED_BYTES);
        let (header, after_header) = bytes.split_at(HEADER_BYTES);
        let (places, rest) = after_header.split_at(BLOCK_RECORDS * RECORD_BYTES);
        Block {
            index: number(&header[..2]),
            blocks: number(&header[2..4]),
            records: number(&header[4..]),
            places: places.chunks(RECORD_BYTES).map(Record::read).collect(),
            rest: rest.to_vec(),
            stated: [number(&stated[..2]), number(&stated[2..])],
            summed: sums(bytes),
        }
    }

    fn used(&self) -> impl Iterator<Item = &Record> {
        self.places.iter().take(self.records.into())
    }

    fn unused(&self) -> impl Iterator<Item = &Record> {
        self.places.iter().skip(self.records.into())
    }
}

/// A file taken apart.
struct File {
    length: usize,
    /// Its whole blocks.
    blocks: Vec<Block>,
}

/// A question with the number of its refusal.
type Question = (u32, fn(&File) -> bool);

/// What is asked of a file, in order. Each question may rely on those before it. Those of 19 are about filler, then
/// slots, then what 1 to 4, the order of lists, 5 and 7 ask of the records.
const QUESTIONS: [Question; 16] = [
    (16, File::has_one_to_twelve_blocks),
    (17, File::has_right_sums),
    (18, File::has_right_indices),
    (18, File::has_right_block_counts),
    (18, File::has_right_record_counts),
    (19, File::has_zeros_in_unused_places),
    (19, File::has_zeros_in_unused_entries),
    (19, File::has_zeros_behind_places),
    (19, File::has_ascending_slots),
    (19, File::has_heads_below_256),
    (19, File::has_at_most_eight_entries_each),
    (19, File::has_entries_below_256),
    (19, File::has_no_repeated_atom),
    (19, File::has_ascending_lists),
    (19, File::has_no_rule_twice),
    (19, File::has_no_loop_through_negation),
];

impl File {
    fn of(bytes: &[u8]) -> File {
        File {
            length: bytes.len(),
            blocks: bytes.chunks_exact(BLOCK_BYTES).map(Block::read).collect(),
        }
    }

    fn records(&self) -> impl Iterator<Item = &Record> {
        self.blocks.iter().flat_map(Block::used)
    }

    fn lists(&self) -> impl Iterator<Item = Vec<u32>> + '_ {
        self.records().flat_map(Record::lists)
    }

    /// The rules, one behind the other.
    fn rules(&self) -> Vec<Rule> {
        self.records().map(Record::rule).collect()
    }

    fn has_one_to_twelve_blocks(&self) -> bool {
        (1..=BLOCKS).any(|count| self.length == count * BLOCK_BYTES)
    }

    fn has_right_sums(&self) -> bool {
        self.blocks.iter().all(|block| block.stated == block.summed)
    }

    fn has_right_indices(&self) -> bool {
        let indices = self.blocks.iter().map(|block| usize::from(block.index));
        indices.eq(0..self.blocks.len())
    }

    fn has_right_block_counts(&self) -> bool {
        let mut counts = self.blocks.iter().map(|block| usize::from(block.blocks));
        counts.all(|count| count == self.blocks.len())
    }

    /// Every block but the last holds 22 records, the last at least 1; the only block of a file may hold none.
    fn has_right_record_counts(&self) -> bool {
        let records = self.blocks.iter().map(|block| block.records.into());
        let mut counts: Vec<usize> = records.collect();
        let last = counts.pop();
        let least = usize::from(!counts.is_empty());
        counts.iter().all(|&count| count == BLOCK_RECORDS)
            && last.is_some_and(|last| (least..=BLOCK_RECORDS).contains(&last))
    }

    fn has_zeros_in_unused_places(&self) -> bool {
        let unused = self.blocks.iter().flat_map(Block::unused);
        unused.flat_map(Record::written).all(|byte| byte == 0)
    }

    fn has_zeros_in_unused_entries(&self) -> bool {
        let mut behind = self.records().flat_map(|record| record.parted().2);
        behind.all(|entry| entry == 0)
    }

    fn has_zeros_behind_places(&self) -> bool {
        let mut rest = self.blocks.iter().flat_map(|block| &block.rest);
        rest.all(|&byte| byte == 0)
    }

    /// The set of the slots, read ascending, gives the slots as they stand, and all are below 256.
    fn has_ascending_slots(&self) -> bool {
        let slots: BTreeSet<u16> = self.records().map(|record| record.slot).collect();
        slots.iter().all(|&slot| usize::from(slot) < SLOTS)
            && self.records().map(|record| &record.slot).eq(&slots)
    }

    fn has_heads_below_256(&self) -> bool {
        self.records()
            .all(|record| usize::from(record.head) < ATOMS)
    }

    fn has_at_most_eight_entries_each(&self) -> bool {
        self.records()
            .all(|record| record.counts().iter().sum::<usize>() <= ENTRIES)
    }

    fn has_entries_below_256(&self) -> bool {
        self.lists().flatten().all(|entry| entry < ATOMS as u32)
    }

    fn has_no_repeated_atom(&self) -> bool {
        let different = |list: &Vec<u32>| list.iter().collect::<BTreeSet<_>>().len();
        self.lists().all(|list| different(&list) == list.len())
    }

    fn has_ascending_lists(&self) -> bool {
        self.lists().all(|list| list.is_sorted())
    }

    fn has_no_rule_twice(&self) -> bool {
        let rules = self.rules();
        rules.iter().collect::<HashSet<_>>().len() == rules.len()
    }

    fn has_no_loop_through_negation(&self) -> bool {
        !has_loop_through_negation(&self.program())
    }

    /// Each record's rule in its slot, with its mark. The slots must be below 256.
    fn program(&self) -> Program {
        let mut program = vec![None; SLOTS];
        for record in self.records() {
            program[usize::from(record.slot)] = Some(Page {
                rule: record.rule(),
                muted: record.muted(),
            });
        }
        program
    }
}

/// The rules and marks that the file holds, or the number of its refusal: 16, 17, 18 and 19 are asked in this order,
/// each over the whole file.
pub fn read(bytes: &[u8]) -> Result<Program, u32> {
    let file = File::of(bytes);
    match QUESTIONS.iter().find(|(_, passes)| !passes(&file)) {
        Some((number, _)) => Err(*number),
        None => Ok(file.program()),
    }
}
