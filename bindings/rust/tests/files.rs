//! Saved tables as bytes: what is written, what is read again, and what is refused.

mod common;

use common::{table, Random};
use yeqontur::raw::{self, FILE_BYTES};
use yeqontur::{Refusal, Rule, Table};

const BLOCK: usize = 512;

/// The place of a record in its block.
fn record(place: usize) -> usize {
    6 + 22 * place
}

/// Writes a number, low byte first.
fn put(bytes: &mut [u8], at: usize, number: u16) {
    bytes[at..at + 2].copy_from_slice(&number.to_le_bytes());
}

/// Puts the right checksum into each block.
fn seal(file: &mut [u8]) {
    for block in file.chunks_exact_mut(BLOCK) {
        let (mut a, mut b) = (1_u64, 0_u64);
        for &byte in &block[..508] {
            a += u64::from(byte);
            b += a;
        }
        put(block, 508, (a % 65_536) as u16);
        put(block, 510, (b % 65_536) as u16);
    }
}

/// The file of these rules, as specification 7.2 to 7.5 say it.
fn written(rules: &[Rule]) -> Vec<u8> {
    let blocks = rules.len().div_ceil(22).max(1);
    let mut file = vec![0; BLOCK * blocks];
    for (index, block) in file.chunks_exact_mut(BLOCK).enumerate() {
        let held = rules.iter().skip(22 * index).take(22);
        put(block, 0, index as u16);
        put(block, 2, blocks as u16);
        put(block, 4, held.len() as u16);
        for (place, rule) in held.enumerate() {
            let at = record(place);
            put(block, at, rule.slot as u16);
            put(block, at + 2, rule.head as u16);
            let muted = if rule.muted { 0x80 } else { 0 };
            block[at + 4] = rule.positives.len() as u8 | muted;
            block[at + 5] = rule.negatives.len() as u8;
            for (i, &atom) in rule.positives.iter().chain(&rule.negatives).enumerate() {
                put(block, at + 6 + 2 * i, atom as u16);
            }
        }
    }
    seal(&mut file);
    file
}

/// A table of so many facts, in the slots from 0.
fn facts(count: u32) -> Table {
    let mut t = Table::new();
    for atom in 0..count {
        assert_eq!(t.add(atom, &[], &[]), Ok(atom));
    }
    t
}

/// The table's file is the one that the specification describes, and gives the table back.
fn survives(t: &Table) {
    let file = t.save();
    let rules: Vec<Rule> = t.rules().collect();
    assert!(file == written(&rules), "{} rules", rules.len());
    assert!(Table::load(&file).as_ref() == Ok(t));
}

/// Refused with this number, and the empty table handed back.
fn refused(file: &[u8], number: u32) {
    let told = raw::load(file);
    assert_eq!(told.refused, number);
    assert_eq!(told.table.as_bytes(), &[0; raw::Table::BYTES]);
    let refusal = Table::load(file).expect_err("a refusal");
    assert_eq!(refusal.number(), number);
}

/// The file with one number changed and its checksums right is refused so.
fn refused_with(t: &Table, at: usize, number: u16, refusal: u32) {
    let mut file = t.save();
    put(&mut file, at, number);
    seal(&mut file);
    refused(&file, refusal);
}

/// By hand: A is 1 and the sum of the bytes; B is A for each of 508 bytes, so that a byte counts once for itself and
/// for each byte behind it.
#[test]
fn the_file_of_one_rule_byte_for_byte() {
    let mut expected = [0; BLOCK];
    expected[..18].copy_from_slice(&[0, 0, 1, 0, 1, 0, 0, 0, 9, 0, 2, 1, 1, 0, 2, 0, 7, 0]);
    expected[508..].copy_from_slice(&[25, 0, 0x97, 0x30]); // 12,439
    assert_eq!(table(&[(9, &[2, 1], &[7])]).save(), expected);
}

#[test]
fn tables_of_every_number_of_blocks_come_back() {
    for count in [0, 1, 2, 21, 22, 23, 44, 45, 242, 243, 255, 256] {
        let t = facts(count);
        survives(&t);
        assert_eq!(
            t.save().len(),
            BLOCK * t.rules().count().div_ceil(22).max(1)
        );
    }
    assert_eq!(facts(256).save().len(), FILE_BYTES);
}

#[test]
fn random_tables_come_back_in_their_slots_with_their_labels() {
    let mut random = Random(11);
    for round in 0..60 {
        let mut t = random.muted_table(10 * round, 30, 3);
        survives(&t);
        for _ in 0..round {
            let _ = t.remove(random.below(256));
        }
        survives(&t);
    }
}

#[test]
fn a_buffer_byte_for_byte() {
    for t in [Table::new(), facts(22), facts(23)] {
        let file = t.save();
        for length in [0, 1, file.len() - 1, file.len(), file.len() + 1, FILE_BYTES] {
            let mut bytes = vec![0xA5; length];
            let told = raw::save(t.as_raw(), &mut bytes);
            assert_eq!(told.count, file.len());
            if length < file.len() {
                assert_eq!(told.refused, 11);
                assert!(bytes.iter().all(|&byte| byte == 0xA5));
            } else {
                assert_eq!(told.refused, 0);
                assert_eq!(bytes[..file.len()], file);
                assert!(bytes[file.len()..].iter().all(|&byte| byte == 0xA5));
            }
        }
    }
}

#[test]
fn refused_16_by_any_other_length() {
    let mut long = facts(256).save();
    long.resize(7000, 0);
    for length in 0..long.len() {
        let blocks = length % BLOCK == 0 && (1..=12).contains(&(length / BLOCK));
        if !blocks {
            refused(&long[..length], 16);
        }
    }
    refused(&vec![0; 1 << 20], 16);
}

/// A file that lost blocks, or has them in another order, has right checksums.
#[test]
fn refused_18_by_blocks_that_are_not_those_of_one_file() {
    let file = facts(50).save();
    let block = |i: usize| &file[BLOCK * i..BLOCK * (i + 1)];
    refused(&file[..2 * BLOCK], 18);
    refused(&file[BLOCK..], 18);
    refused(&[block(1), block(0), block(2)].concat(), 18);
    refused(&[block(0), block(0), block(2)].concat(), 18);
    let other = facts(30).save();
    refused(&[block(0), &other[BLOCK..]].concat(), 18);
}

#[test]
fn refused_18_by_index_block_count_and_record_count() {
    let t = facts(23);
    for (at, right) in [(0, 0), (2, 2), (4, 22), (512, 1), (514, 2)] {
        for number in [0, 1, 2, 3, 21, 22, 23, 256, 257, 65_535] {
            if number != right {
                refused_with(&t, at, number, 18);
            }
        }
    }
    for number in [0, 23, 256, 65_535] {
        refused_with(&t, 516, number, 18);
    }
    refused_with(&Table::new(), 4, 23, 18);
}

#[test]
fn refused_19_by_bytes_that_are_not_used() {
    let t = table(&[(9, &[1, 2], &[7])]);
    refused_with(&t, record(0) + 12, 1, 19); // an entry
    refused_with(&t, record(0) + 20, 0x100, 19);
    for place in 1..22 {
        refused_with(&t, record(place), 5, 19); // a place
        refused_with(&t, record(place) + 20, 0x100, 19);
    }
    for at in (490..508).step_by(2) {
        refused_with(&t, at, 1, 19);
        refused_with(&Table::new(), at, 0x100, 19);
    }
}

#[test]
fn refused_19_by_slots_that_do_not_ascend_below_256() {
    let t = facts(23);
    for number in [0, 2, 3, 255, 256, 257, 65_535] {
        refused_with(&t, record(1), number, 19);
    }
    for number in [0, 20, 21, 256] {
        refused_with(&t, BLOCK + record(0), number, 19); // behind slot 21, the last of the first block
    }
    let mut file = facts(256).save();
    let last = file.len() - BLOCK;
    put(&mut file, last + 4, 15); // 257 records cannot ascend below 256
    seal(&mut file);
    refused(&file, 19);
}

/// Numbers that no addition lets in: 1, 2, 3, 4 and lists that do not ascend.
#[test]
fn refused_19_by_a_record_that_is_no_rule() {
    let t = table(&[(9, &[1, 2], &[7, 8])]);
    let at = record(0);
    for number in [256, 257, 65_535] {
        refused_with(&t, at + 2, number, 19);
        for entry in 0..4 {
            refused_with(&t, at + 6 + 2 * entry, number, 19);
        }
    }
    for (positives, negatives) in [
        (0, 9),
        (9, 0),
        (5, 4),
        (4, 5),
        (255, 255),
        (255, 1),
        (128, 0),
    ] {
        refused_with(&t, at + 4, u16::from_le_bytes([positives, negatives]), 19);
    }
    for (entry, number) in [(0, 2), (0, 3), (1, 1), (1, 0), (2, 8), (3, 7), (3, 5)] {
        refused_with(&t, at + 6 + 2 * entry, number, 19);
    }
}

/// The top bit of a positive count says that the rule is muted; the other seven bits are the count, and the questions
/// are those of any rule. The same bit elsewhere is wrong.
#[test]
fn a_muted_rule_is_a_bit_of_its_record() {
    let mut t = table(&[(9, &[1, 2], &[7, 8]), (3, &[], &[])]);
    let at = record(0);
    let mut file = t.save();
    file[at + 4] |= 0x80;
    seal(&mut file);
    assert_eq!(t.mute(0), Ok(()));
    assert_eq!(Table::load(&file), Ok(t.clone()));
    survives(&t);
    for (positives, negatives) in [
        (0x80, 2),
        (0x81, 2),
        (0x83, 2),
        (0x87, 2),
        (0xff, 2),
        (0xff, 3),
        (0x82, 0x82),
        (2, 0x82),
    ] {
        refused_with(&t, at + 4, u16::from_le_bytes([positives, negatives]), 19);
    }
    refused_with(&t, record(2) + 4, 0x80, 19);
    refused_with(&t, at + 2, 256, 19);
    refused_with(&t, at + 6, 3, 19);
    refused_with(&t, at + 2, 8, 19); // a loop through a negation
    let twice = table(&[(1, &[], &[]), (2, &[], &[])]);
    let mut muted = twice.clone();
    assert_eq!(muted.mute(1), Ok(()));
    refused_with(&muted, record(1) + 2, 1, 19); // the same rule
}

/// Records that are rules, and not those of one table: 5 and 7.
#[test]
fn refused_19_by_rules_that_no_table_has_together() {
    let t = table(&[(1, &[2, 3], &[]), (1, &[2, 4], &[])]);
    refused_with(&t, record(1) + 8, 3, 19);
    let t = table(&[(1, &[2], &[]), (3, &[], &[1])]);
    refused_with(&t, record(1) + 2, 2, 19);
    refused_with(&t, record(1) + 2, 1, 19);
}

/// Of two faults the one that is asked for later stands in the first block, and the one that is asked for first in the
/// last: whoever asked block by block would tell the other one.
#[test]
fn questions_are_asked_in_their_order_over_the_whole_file() {
    let with = |faults: &[(usize, u16)]| {
        let mut file = facts(50).save();
        faults.iter().for_each(|&(at, n)| put(&mut file, at, n));
        seal(&mut file);
        file
    };
    let (index, last_index, unused) = ((0, 7), (2 * BLOCK, 7), (506, 1));
    refused(&with(&[last_index]), 18);
    refused(&with(&[unused, last_index]), 18);
    for (first, number) in [(index, 18), (unused, 19)] {
        let mut file = with(&[first]);
        refused(&file, number);
        file[3 * BLOCK - 1] ^= 1;
        refused(&file, 17);
        file.push(0);
        refused(&file, 16);
    }
}

#[test]
fn one_changed_byte_anywhere_is_refused_17() {
    let mut file = facts(23).save();
    for at in 0..file.len() {
        for change in 1..=255 {
            file[at] ^= change;
            assert_eq!(raw::load(&file).refused, 17, "byte {at}");
            file[at] ^= change;
        }
    }
    assert!(Table::load(&file).is_ok());
}

/// Some bytes of a saved file changed, its checksums made right again.
fn changed(t: &Table, random: &mut Random) -> Vec<u8> {
    let mut file = t.save();
    for _ in 0..=random.below(2) {
        let block = random.below((file.len() / BLOCK) as u32) as usize;
        let at = random.below(120) as usize;
        file[BLOCK * block + at] = random.below(12) as u8;
        if random.below(3) == 0 {
            file[BLOCK * block + record(random.below(5) as usize) + 4] ^= 0x80; // muted or not
        }
    }
    seal(&mut file);
    file
}

#[test]
fn a_file_that_is_accepted_is_the_one_that_its_table_writes() {
    let mut random = Random(12);
    let mut numbers = [0; 20];
    for _ in 0..40 {
        let t = random.table(40, 12);
        for _ in 0..200 {
            let file = changed(&t, &mut random);
            match Table::load(&file) {
                Ok(loaded) => {
                    assert!(loaded.save() == file);
                    survives(&loaded);
                    numbers[0] += 1;
                }
                Err(refusal) => numbers[refusal.number() as usize] += 1,
            }
        }
    }
    assert!(
        numbers[0] > 200 && numbers[18] > 200 && numbers[19] > 200,
        "{numbers:?}"
    );
    assert_eq!(numbers[0] + numbers[18] + numbers[19], 8000);
}

#[test]
fn any_bytes_are_answered() {
    let mut random = Random(13);
    for _ in 0..2000 {
        let blocks = 1 + random.below(12) as usize;
        let mut file: Vec<u8> = (0..BLOCK * blocks).map(|_| random.word() as u8).collect();
        refused(&file, 17);
        seal(&mut file);
        refused(&file, 18);
    }
}

#[test]
fn the_words_of_a_refused_file_say_what_to_do() {
    let words = Table::load(&[]).expect_err("no file").to_string();
    assert_eq!(
        words,
        "refused 16: the file's length is not 512 bytes times 1 to 12; it was cut short, or is no saved table: \
         keep it aside, and load a copy or add the rules again"
    );
    for &refusal in Refusal::ALL {
        let of_a_file = (16..=19).contains(&refusal.number());
        let aside = refusal.advice().contains("keep it aside");
        assert_eq!(aside, of_a_file, "{refusal}");
    }
}
