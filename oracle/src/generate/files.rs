//! Random files: whole ones of every size, with muted rules and without, and damaged ones. Where a file has no room for
//! its damage, or the damage makes the file of another table, it is accepted: the reader decides.

use crate::file::{self, Record};
use crate::generate::file_bytes as bytes;
use crate::generate::file_records::{self as records, extended};
use crate::generate::marks::{any_marked, marked, Marks};
use crate::generate::programs::{self, crowded, program};
use crate::limits::{BLOCK_RECORDS, SLOTS};
use crate::random::Random;
use crate::rules::Program;

/// What a file is, or what is wrong with it.
#[derive(Clone, Copy, PartialEq, Eq, PartialOrd, Ord, Debug)]
pub enum Kind {
    /// The empty table.
    NoRecord,
    OneRecord,
    FullBlock,
    FullBlockAndOne,
    TwoFullBlocks,
    FullTable,
    /// The table of a program of any flavour.
    AnyTable,
    /// One rule is muted.
    OneMuted,
    AllMuted,

    BitFlipped,
    ByteChanged,
    /// A block's sums are made by another recipe.
    OtherSums,
    BlocksSwapped,
    /// Cut anywhere, also between blocks and before the first byte.
    Cut,
    /// Bytes or blocks follow the last block.
    Lengthened,
    Doubled,
    /// Random bytes, 512 times 1 to 12.
    Garbage,
    /// Random bytes of another length.
    GarbageOfOtherLength,

    // Below, the sums are put right again.
    /// Random bytes of whole blocks.
    GarbageSummed,
    /// One byte anywhere is another.
    ByteChangedSummed,
    WrongIndex,
    WrongBlockCount,
    WrongRecordCount,
    /// A block before the last holds 21 records, and nothing else is wrong.
    ShortBlock,
    /// Behind full blocks stands one of no records, and nothing else is wrong.
    EmptyLastBlock,
    /// A byte of an unused place is not zero.
    UnusedPlace,
    /// A byte behind the places is not zero.
    BehindPlaces,

    /// A byte of an unused entry is not zero.
    UnusedEntry,
    SlotsSwapped,
    SlotTwice,
    SlotTooLarge,
    HeadTooLarge,
    EntryTooLarge,
    /// Counts of more than 8 entries, some of which come to 8 or less where they are added as bytes.
    TooManyEntries,
    /// The same in a record whose positive count has the top bit set.
    MarkedTooMany,
    /// The top bit of some positive counts is another: the file of another table.
    MarksChanged,
    /// The top bit of a negative count is set.
    NegativeMarked,
    /// The end of the positive list is moved by one entry.
    MovedEnd,
    RepeatedEntry,
    Descending,
    SameRule,
    /// The same rule, its lists in another order.
    SameRuleDescending,
    /// A rule negates its head.
    LoopOfOne,
    LongerLoop,
    /// 257 to 264 records: as many as fit in 12 blocks.
    TooManyRecords,
    /// 265 records and more.
    ThirteenBlocks,

    /// Two or three of the damages above.
    Several,
}

pub const KINDS: [Kind; 47] = [
    Kind::NoRecord,
    Kind::OneRecord,
    Kind::FullBlock,
    Kind::FullBlockAndOne,
    Kind::TwoFullBlocks,
    Kind::FullTable,
    Kind::AnyTable,
    Kind::OneMuted,
    Kind::AllMuted,
    Kind::BitFlipped,
    Kind::ByteChanged,
    Kind::OtherSums,
    Kind::BlocksSwapped,
    Kind::Cut,
    Kind::Lengthened,
    Kind::Doubled,
    Kind::Garbage,
    Kind::GarbageOfOtherLength,
    Kind::GarbageSummed,
    Kind::ByteChangedSummed,
    Kind::WrongIndex,
    Kind::WrongBlockCount,
    Kind::WrongRecordCount,
    Kind::ShortBlock,
    Kind::EmptyLastBlock,
    Kind::UnusedPlace,
    Kind::BehindPlaces,
    Kind::UnusedEntry,
    Kind::SlotsSwapped,
    Kind::SlotTwice,
    Kind::SlotTooLarge,
    Kind::HeadTooLarge,
    Kind::EntryTooLarge,
    Kind::TooManyEntries,
    Kind::MarkedTooMany,
    Kind::MarksChanged,
    Kind::NegativeMarked,
    Kind::MovedEnd,
    Kind::RepeatedEntry,
    Kind::Descending,
    Kind::SameRule,
    Kind::SameRuleDescending,
    Kind::LoopOfOne,
    Kind::LongerLoop,
    Kind::TooManyRecords,
    Kind::ThirteenBlocks,
    Kind::Several,
];

/// How many of the kinds, the first ones, are whole.
const WHOLE: usize = 9;

/// What is done to a file, and when.
enum Damage {
    Nothing,
    /// There are more records: between so many.
    More(usize, usize),
    /// To its records, before they are put into blocks.
    Records(fn(&mut Random, &mut [Record])),
    /// To its blocks, before the sums are put right.
    Blocks(fn(&mut Random, Vec<u8>) -> Vec<u8>),
    /// To its bytes, at last.
    Bytes(fn(&mut Random, Vec<u8>) -> Vec<u8>),
}

impl Kind {
    /// Is something wrong with files of this kind?
    pub fn is_damaged(self) -> bool {
        !KINDS[..WHOLE].contains(&self)
    }

    fn damage(self) -> Damage {
        match self {
            Kind::BitFlipped => Damage::Bytes(bytes::bit_flipped),
            Kind::ByteChanged => Damage::Bytes(bytes::byte_changed),
            Kind::OtherSums => Damage::Bytes(bytes::other_sums),
            Kind::BlocksSwapped => Damage::Bytes(bytes::blocks_swapped),
            Kind::Cut => Damage::Bytes(bytes::cut),
            Kind::Lengthened => Damage::Bytes(bytes::lengthened),
            Kind::Doubled => Damage::Bytes(bytes::doubled),
            Kind::Garbage => Damage::Bytes(bytes::garbage),
            Kind::GarbageOfOtherLength => Damage::Bytes(bytes::garbage_of_other_length),
            Kind::GarbageSummed => Damage::Blocks(bytes::garbage),
            Kind::ByteChangedSummed => Damage::Blocks(bytes::byte_changed),
            Kind::WrongIndex => Damage::Blocks(bytes::wrong_index),
            Kind::WrongBlockCount => Damage::Blocks(bytes::wrong_block_count),
            Kind::WrongRecordCount => Damage::Blocks(bytes::wrong_record_count),
            Kind::ShortBlock => Damage::Blocks(bytes::short_block),
            Kind::EmptyLastBlock => Damage::Blocks(bytes::empty_last_block),
            Kind::UnusedPlace => Damage::Blocks(bytes::unused_place),
            Kind::BehindPlaces => Damage::Blocks(bytes::behind_places),
            Kind::TooManyRecords => Damage::More(257, 264),
            Kind::ThirteenBlocks => Damage::More(265, 286),
            _ => self.damage_of_records(),
        }
    }

    fn damage_of_records(self) -> Damage {
        Damage::Records(match self {
            Kind::UnusedEntry => records::unused_entry,
            Kind::SlotsSwapped => records::slots_swapped,
            Kind::SlotTwice => records::slot_twice,
            Kind::SlotTooLarge => records::slot_too_large,
            Kind::HeadTooLarge => records::head_too_large,
            Kind::EntryTooLarge => records::entry_too_large,
            Kind::TooManyEntries => records::too_many_entries,
            Kind::MarkedTooMany => records::marked_too_many,
            Kind::MarksChanged => records::marks_changed,
            Kind::NegativeMarked => records::negative_marked,
            Kind::MovedEnd => records::moved_end,
            Kind::RepeatedEntry => records::repeated_entry,
            Kind::Descending => records::descending,
            Kind::SameRule => records::same_rule,
            Kind::SameRuleDescending => records::same_rule_descending,
            Kind::LoopOfOne => records::loop_of_one,
            Kind::LongerLoop => records::longer_loop,
            _ => return Damage::Nothing,
        })
    }

    /// How many records a file of this kind starts with: what its name says, or any number that has room for its
    /// damage.
    fn record_count(self, random: &mut Random) -> usize {
        let least = match self {
            Kind::NoRecord => return 0,
            Kind::OneRecord => return 1,
            Kind::FullBlock => return BLOCK_RECORDS,
            Kind::FullBlockAndOne => return BLOCK_RECORDS + 1,
            Kind::TwoFullBlocks => return 2 * BLOCK_RECORDS,
            Kind::FullTable | Kind::TooManyRecords | Kind::ThirteenBlocks => return SLOTS,
            Kind::EmptyLastBlock => return random.between(1, 11) * BLOCK_RECORDS,
            Kind::BlocksSwapped | Kind::ShortBlock => BLOCK_RECORDS + 1,
            Kind::UnusedPlace if random.percent(20) => return 0,
            Kind::UnusedPlace => return random.below(12) * BLOCK_RECORDS + random.between(1, 14),
            Kind::OneMuted | Kind::AllMuted => 1,
            Kind::SlotsSwapped | Kind::SlotTwice | Kind::SameRule => 2,
            Kind::LongerLoop | Kind::Descending | Kind::SameRuleDescending => 8,
            _ => usize::from(matches!(self.damage(), Damage::Records(_))),
        };
        match random.below(4) {
            0 => random.between(least, least + 3),
            1 => random.between(least, (3 * BLOCK_RECORDS).max(least)),
            2 => random.between(2, 11) * BLOCK_RECORDS,
            _ => random.between(least, SLOTS),
        }
    }
}

/// A program with that many rules, in the first slots or anywhere.
fn program_of(random: &mut Random, rules: usize) -> Program {
    let mut program = crowded(random, rules);
    if random.percent(70) {
        random.shuffle(&mut program);
    }
    program
}

fn drawn_records(random: &mut Random, kind: Kind) -> Vec<Record> {
    let program = match kind {
        Kind::AnyTable => {
            let flavour = *random.pick(&programs::FLAVOURS);
            program(random, flavour)
        }
        _ => {
            let count = kind.record_count(random);
            program_of(random, count)
        }
    };
    let program = match kind {
        Kind::OneMuted => marked(random, program, Marks::One),
        Kind::AllMuted => marked(random, program, Marks::All),
        _ => any_marked(random, program),
    };
    file::records(&program)
}

/// The file of these records, with all of these damages.
fn damaged(random: &mut Random, mut records: Vec<Record>, kinds: &[Kind]) -> Vec<u8> {
    for kind in kinds {
        match kind.damage() {
            Damage::More(least, most) => {
                let count = random.between(least, most);
                extended(random, &mut records, count);
            }
            Damage::Records(damage) => damage(random, &mut records),
            _ => {}
        }
    }
    let mut bytes = file::blocks(&records);
    for kind in kinds {
        if let Damage::Blocks(damage) = kind.damage() {
            bytes = damage(random, bytes);
        }
    }
    file::put_sums_right(&mut bytes);
    for kind in kinds {
        if let Damage::Bytes(damage) = kind.damage() {
            bytes = damage(random, bytes);
        }
    }
    bytes
}

/// A random file of that kind.
pub fn file(random: &mut Random, kind: Kind) -> Vec<u8> {
    let records = drawn_records(random, kind);
    if kind != Kind::Several {
        return damaged(random, records, &[kind]);
    }
    let count = random.between(2, 3);
    let kinds = random.sample(&KINDS[WHOLE..KINDS.len() - 1], count);
    damaged(random, records, &kinds)
}

/// A file of any kind.
pub fn any_file(random: &mut Random) -> Vec<u8> {
    let kind = *random.pick(&KINDS);
    file(random, kind)
}
