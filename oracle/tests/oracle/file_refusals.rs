//! Refusals of files: what meets each, and the order in which they are asked.

use crate::notation::{page, program};
use oracle::book::Book;
use oracle::file::{blocks, put_sums_right, read, records, write, Record};
use oracle::rules::Program;

/// The number that a file is refused with, 0 if it is accepted.
fn refused(bytes: &[u8]) -> u32 {
    read(bytes).err().unwrap_or(0)
}

/// The number that the bytes are refused with once their sums are right.
fn refused_summed(mut bytes: Vec<u8>) -> u32 {
    put_sums_right(&mut bytes);
    refused(&bytes)
}

/// 50 rules, so that there are three blocks of 22, 22 and 6 records. The first two records have lists: slots 1 and 3.
fn fifty() -> Program {
    let mut rules: Vec<String> = (0..48).map(|atom| format!("{atom} <")).collect();
    rules.insert(0, "100 < 1 2 4 !101 !103".to_string());
    rules.insert(1, "101 < 1 2 !103".to_string());
    let texts: Vec<&str> = rules.iter().map(String::as_str).collect();
    let mut spread = program(&[]);
    for (place, slot_holds) in program(&texts).into_iter().take(50).enumerate() {
        spread[2 * place + 1] = slot_holds;
    }
    spread
}

/// The file of the fifty rules with bytes changed, the sums right.
fn with_bytes(changes: &[(usize, u8)]) -> u32 {
    let mut bytes = write(&fifty());
    for &(at, byte) in changes {
        bytes[at] = byte;
    }
    refused_summed(bytes)
}

/// The file of the fifty rules with its records changed, the sums right.
fn with_records(change: fn(&mut Vec<Record>)) -> u32 {
    let mut changed = records(&fifty());
    change(&mut changed);
    refused(&blocks(&changed))
}

#[test]
fn a_length_other_than_512_times_1_to_12_is_16() {
    assert_eq!(refused(&write(&fifty())), 0);
    for length in [0, 1, 511, 513, 1_023, 6_143, 6_145, 6_656, 1 << 20] {
        assert_eq!(refused(&vec![0; length]), 16, "{length}");
    }
    for count in 1..=12 {
        assert_eq!(refused(&vec![0; 512 * count]), 17, "{count} blocks");
    }
}

#[test]
fn any_other_byte_anywhere_is_17() {
    let whole = write(&program(&["1 <", "2 < 1 !3"]));
    let mut bytes = whole.clone();
    for at in 0..512 {
        for byte in 0..=255 {
            bytes[at] = byte;
            let expected = if byte == whole[at] { 0 } else { 17 };
            assert_eq!(refused(&bytes), expected, "{byte} at {at}");
        }
        bytes[at] = whole[at];
    }
}

#[test]
fn the_sums_of_every_block_are_asked() {
    for at in [508, 510, 512 + 508, 512 + 510, 1024 + 509, 1024 + 511] {
        let mut bytes = write(&fifty());
        bytes[at] ^= 1;
        assert_eq!(refused(&bytes), 17, "{at}");
    }
}

#[test]
fn a_wrong_index_or_block_count_in_any_block_is_18() {
    for at in [0, 512, 1024] {
        let index = at / 512;
        for byte in (0..=255).filter(|&byte| usize::from(byte) != index) {
            assert_eq!(with_bytes(&[(at, byte)]), 18, "index {byte} at {at}");
        }
        for byte in (0..=255).filter(|&byte| byte != 3) {
            assert_eq!(with_bytes(&[(at + 2, byte)]), 18, "{byte} blocks at {at}");
        }
        assert_eq!(with_bytes(&[(at + 1, 1)]), 18, "index past 255");
        assert_eq!(with_bytes(&[(at + 3, 1)]), 18, "more than 255 blocks");
    }
    assert_eq!(
        with_bytes(&[(2, 4), (514, 4), (1026, 4)]),
        18,
        "of one mind"
    );
}

#[test]
fn a_record_count_that_no_table_gives_is_18() {
    for at in [4, 516] {
        for byte in (0..=255).filter(|&byte| byte != 22) {
            assert_eq!(with_bytes(&[(at, byte)]), 18, "{byte} at {at}");
        }
        assert_eq!(with_bytes(&[(at + 1, 1)]), 18, "256 more");
    }
    for byte in (23..=255).chain([0]) {
        assert_eq!(with_bytes(&[(1028, byte)]), 18, "{byte} in the last");
    }
    assert_eq!(with_bytes(&[(1029, 1)]), 18, "256 more in the last");
}

#[test]
fn a_record_count_that_some_table_gives_is_held_against_the_records() {
    for byte in (1..=22).filter(|&byte| byte != 6) {
        assert_eq!(with_bytes(&[(1028, byte)]), 19, "{byte} in the last");
    }
    let mut one = write(&program(&["1 <"]));
    one[4] = 0;
    assert_eq!(refused_summed(one.clone()), 19, "the record is filler");
    one[8] = 0;
    assert_eq!(refused_summed(one), 0, "nothing but zeros is left of it");
}

#[test]
fn swapped_cut_and_doubled_files_are_18_or_16() {
    let whole = write(&fifty());
    let (first, rest) = whole.split_at(512);
    let (second, third) = rest.split_at(512);
    assert_eq!(refused(&[second, first, third].concat()), 18);
    assert_eq!(refused(&[first, third, second].concat()), 18);
    assert_eq!(refused(&[first, second].concat()), 18);
    assert_eq!(refused(&[first, second, third, third].concat()), 18);
    assert_eq!(refused(&[&whole[..], &whole].concat()), 18);
    assert_eq!(refused(&whole.repeat(5)), 16);
    assert_eq!(refused(&whole[..whole.len() - 1]), 16);
}

#[test]
fn each_byte_of_filler_is_asked() {
    let first_unused_place = 1024 + 6 + 22 * 6;
    for at in (first_unused_place..1024 + 508).chain(490..508) {
        assert_eq!(with_bytes(&[(at, 1)]), 19, "{at}");
        assert_eq!(with_bytes(&[(at, 255)]), 19, "{at}");
    }
    // The first record has five entries, from byte 12 on.
    for at in 22..28 {
        assert_eq!(with_bytes(&[(at, 1)]), 19, "{at}");
    }
    for at in 6..490 {
        let mut empty = write(&program(&[]));
        empty[at] = 1;
        assert_eq!(refused_summed(empty), 19, "{at} of the empty table");
    }
}

/// What is changed, in words, and the change.
type Change = (&'static str, fn(&mut Vec<Record>));

const CHANGES: [Change; 29] = [
    ("two slots swapped", |r| {
        (r[6].slot, r[7].slot) = (r[7].slot, r[6].slot)
    }),
    ("two records swapped", |r| r.swap(20, 22)),
    ("two equal slots", |r| r[7].slot = r[6].slot),
    ("two equal slots in two blocks", |r| r[22].slot = r[21].slot),
    ("slot 256", |r| r[49].slot = 256),
    ("slot 65535", |r| r[49].slot = 65_535),
    ("a slot that wraps", |r| r[49].slot += 256),
    ("head 256", |r| r[5].head = 256),
    ("head 65535", |r| r[5].head = 65_535),
    ("entry 256", |r| r[0].entries[2] = 256),
    ("negative entry 65535", |r| r[0].entries[4] = 65_535),
    ("an entry that wraps", |r| r[0].entries[2] += 256),
    ("nine positives", |r| r[5].positives = 9),
    ("nine negatives", |r| r[5].negatives = 9),
    ("eight and one", |r| {
        (r[5].positives, r[5].negatives) = (8, 1)
    }),
    ("counts that wrap to 0", |r| {
        (r[5].positives, r[5].negatives) = (255, 1)
    }),
    ("the top bit of the negative count", |r| {
        r[0].negatives |= 128
    }),
    ("the top bits of both counts", |r| {
        (r[0].positives, r[0].negatives) = (3 + 128, 2 + 128)
    }),
    ("the mark and nine positives", |r| r[5].positives = 128 + 9),
    ("the mark and counts that wrap to 5", |r| {
        (r[0].positives, r[0].negatives) = (128 + 125, 8)
    }),
    ("the mark and a positive too many", |r| {
        r[0].positives = 128 + 4
    }),
    ("a positive twice", |r| r[0].entries[1] = 1),
    ("a negative twice", |r| r[0].entries[4] = 101),
    ("positives that descend", |r| r[0].entries.swap(0, 2)),
    ("negatives that descend", |r| r[0].entries.swap(3, 4)),
    ("a list longer than its atoms", |r| {
        // The entry 0 would have to stand first.
        (r[0].positives, r[0].negatives) = (3, 3)
    }),
    ("the same fact twice", |r| r[9].head = r[30].head),
    ("a head that is negated", |r| {
        r[9] = Record {
            slot: r[9].slot,
            ..record("7 < !7")
        }
    }),
    ("a loop through a negation over blocks", |r| {
        r[9] = Record {
            slot: r[9].slot,
            ..record("103 < 104")
        };
        r[49] = Record {
            slot: r[49].slot,
            ..record("104 < 100")
        }
    }),
];

/// The record of a rule in slot 0.
fn record(text: &str) -> Record {
    records(&[Some(page(text))]).remove(0)
}

#[test]
fn records_that_no_table_has_are_19() {
    assert_eq!(with_records(|_| ()), 0);
    for (what, change) in CHANGES {
        assert_eq!(with_records(change), 19, "{what}");
    }
}

/// The number that the fifty rules are refused with where the first has eight different entries, ascending, and these
/// counts.
fn with_counts(positives: u8, negatives: u8) -> u32 {
    let mut changed = records(&fifty());
    changed[0].entries = [200, 201, 202, 203, 204, 205, 206, 207];
    (changed[0].positives, changed[0].negatives) = (positives, negatives);
    refused(&blocks(&changed))
}

#[test]
fn counts_past_eight_are_19_though_what_stands_there_are_lists() {
    for positives in 0..=255u8 {
        // Both counts together come to about eight, with the mark or without, as they are or as bytes.
        let sums = (6..=10u8).chain(128 + 6..=128 + 10);
        for negatives in sums.map(|sum| sum.wrapping_sub(positives)) {
            let expected = match u32::from(positives & 0x7f) + u32::from(negatives) {
                8 => 0,
                _ => 19,
            };
            let refused = with_counts(positives, negatives);
            assert_eq!(refused, expected, "{positives} and {negatives}");
        }
        assert_eq!(with_counts(positives, 255), 19);
        assert_eq!(with_counts(255, positives), 19);
    }
}

/// The fifty rules with the marks of these slots.
fn fifty_muted(slots: &[usize]) -> Program {
    let mut rules = fifty();
    for &slot in slots {
        rules[slot].as_mut().expect("a rule").muted = true;
    }
    rules
}

#[test]
fn the_top_bit_of_a_positive_count_is_the_mark_of_its_rule() {
    // Records 0, 21, 22 and 49 hold what slots 1, 43, 45 and 99 hold.
    for (places, slots) in [
        (&[0][..], &[1][..]),
        (&[21, 22], &[43, 45]),
        (&[0, 49], &[1, 99]),
    ] {
        let mut changed = records(&fifty());
        for &place in places {
            changed[place].positives |= 0x80;
        }
        assert_eq!(read(&blocks(&changed)), Ok(fifty_muted(slots)));
        assert_eq!(write(&fifty_muted(slots)), blocks(&changed));
    }
}

#[test]
fn a_muted_rule_counts_for_sameness_and_loops_in_a_file_too() {
    let same: fn(&mut Vec<Record>) = |r| {
        r[9].head = r[30].head;
        r[9].positives |= 0x80;
    };
    let negates_itself: fn(&mut Vec<Record>) = |r| {
        let slot = r[9].slot;
        r[9] = record("~7 < !7");
        r[9].slot = slot;
    };
    let both_in_a_loop: fn(&mut Vec<Record>) = |r| {
        let slots = (r[9].slot, r[49].slot);
        (r[9], r[49]) = (record("~103 < 104"), record("~104 < 100"));
        (r[9].slot, r[49].slot) = slots;
    };
    for change in [same, negates_itself, both_in_a_loop] {
        assert_eq!(with_records(change), 19);
    }
}

#[test]
fn records_that_another_table_has_are_accepted() {
    assert_eq!(with_records(|r| r[49].slot = 255), 0);
    assert_eq!(with_records(|r| r[5].head = 255), 0);
    assert_eq!(with_records(|r| r[0].entries[4] = 255), 0);
    let moved_end: fn(&mut Vec<Record>) = |r| (r[0].positives, r[0].negatives) = (4, 1);
    assert_eq!(with_records(moved_end), 0);
    let eight: fn(&mut Vec<Record>) = |r| {
        r[0].negatives = 5;
        r[0].entries = [1, 2, 4, 1, 2, 4, 6, 9];
    };
    assert_eq!(with_records(eight), 0);
    let same_rule_but_for_the_lists: fn(&mut Vec<Record>) = |r| {
        r[9] = Record {
            slot: r[9].slot,
            ..record("101 < 1 !2 !103")
        }
    };
    assert_eq!(with_records(same_rule_but_for_the_lists), 0);
}

#[test]
fn more_records_than_slots_are_19_while_they_fit_in_12_blocks() {
    for count in 256..=286 {
        let fact = |slot: u16| Record {
            slot,
            head: slot % 256,
            ..record("0 <")
        };
        let expected = match count {
            256 => 0,
            257..=264 => 19,
            _ => 16,
        };
        let ascending: Vec<Record> = (0..count).map(fact).collect();
        assert_eq!(refused(&blocks(&ascending)), expected, "{count}");
    }
}

#[test]
fn the_questions_are_asked_in_order_over_the_whole_file() {
    // In each step a fault of an earlier question stands in a later block.
    let filler = (500, 1);
    let index = (512, 7);
    assert_eq!(with_bytes(&[filler]), 19);
    assert_eq!(with_bytes(&[filler, index]), 18);
    let mut bytes = write(&fifty());
    (bytes[filler.0], bytes[index.0]) = (filler.1, index.1);
    put_sums_right(&mut bytes);
    bytes[1024 + 508] ^= 1;
    assert_eq!(refused(&bytes), 17);
    bytes.push(0);
    assert_eq!(refused(&bytes), 16);
}

#[test]
fn a_fault_of_18_in_the_first_block_gives_way_to_one_of_17_in_the_last() {
    for (fault, number) in [(0, 18), (2, 18), (4, 18), (495, 19)] {
        let mut bytes = write(&fifty());
        bytes[fault] = 77;
        put_sums_right(&mut bytes);
        assert_eq!(refused(&bytes), number);
        *bytes.last_mut().expect("a byte") ^= 128;
        assert_eq!(refused(&bytes), 17);
    }
}

#[test]
fn a_refused_load_frees_every_page_and_an_accepted_one_forgets_what_they_held() {
    let mut book = Book::empty();
    assert_eq!(book.add(9, &[], &[]), Ok(0));
    assert_eq!(book.load(&write(&fifty())), Ok(()));
    assert_eq!(*book.pages(), fifty());
    assert_eq!(book.load(&[0; 512]), Err(17));
    assert_eq!(book, Book::empty());
}
