//! Files: what is written, byte by byte, and that what was written is what is read.

use crate::notation::{of_flavours, page, program, table};
use oracle::calls;
use oracle::file::{read, sums, write};
use oracle::generate::files::{file, KINDS};
use oracle::generate::{edges, table_of};
use oracle::questions::Refusal;
use oracle::random::Random;
use oracle::rules::{held, Page, Program, Rule};
use oracle::sound::sound_rules;
use oracle::table::{RawRule, RawTable, HELD, MUTED};

/// A block that is zero but for these bytes, each at its place.
fn block(bytes: &[(usize, &[u8])]) -> Vec<u8> {
    let mut block = vec![0; 512];
    for (at, bytes) in bytes {
        block[*at..at + bytes.len()].copy_from_slice(bytes);
    }
    block
}

/// Facts in so many slots, the first ones.
fn facts(count: u32) -> Program {
    let fact = |head: u32| (head < count).then(|| Page::unmuted(Rule::of(head, &[], &[])));
    (0..256).map(fact).collect()
}

#[test]
fn the_empty_table_is_one_block_of_no_records() {
    // A is 1 and the byte 1. B has 1 twice and then 2, 506 times.
    let expected = block(&[(2, &[1]), (508, &[2, 0, 0xf6, 3])]);
    assert_eq!(write(&program(&[])), expected);
    assert_eq!(read(&expected), Ok(program(&[])));
}

#[test]
fn a_record_has_slot_head_counts_positives_and_negatives_right_behind_them() {
    let mut rules = program(&[]);
    rules[3] = Some(page("200 < 255 1 !7"));
    // A is 1 + 1 + 1 + 3 + 200 + 2 + 1 + 1 + 255 + 7 = 472. B is 508 and each byte by 508 less its place:
    // 506 + 504 + 3 * 502 + 200 * 500 + 2 * 498 + 497 + 496 + 255 * 494 + 7 * 492 + 508 = 3 * 65536 + 37819.
    let expected = block(&[
        (0, &[0, 0, 1, 0, 1, 0]),
        (6, &[3, 0, 200, 0, 2, 1, 1, 0, 255, 0, 7, 0]),
        (508, &[0xd8, 1, 0xbb, 0x93]),
    ]);
    assert_eq!(write(&rules), expected);
    assert_eq!(read(&expected), Ok(rules));
}

#[test]
fn the_top_bit_of_the_positive_count_is_the_mark() {
    let mut rules = program(&[]);
    rules[3] = Some(page("~200 < 255 1 !7"));
    rules[9] = Some(page("~0 <"));
    rules[10] = Some(page("1 <"));
    // The record in slot 3 has the count 2, those in slots 9 and 10 have 0. A is that of the unmuted rule alone, 472,
    // with two records more in the header, 128 twice, and 9, 10, 1: 472 + 2 + 256 + 20 = 750. B likewise: 37819 and
    // 2 * 504 + 128 * 498 + 9 * 480 + 128 * 476 + 10 * 458 + 456 = 135036, all of it 172855 = 2 * 65536 + 41783.
    let expected = block(&[
        (0, &[0, 0, 1, 0, 3, 0]),
        (6, &[3, 0, 200, 0, 0x82, 1, 1, 0, 255, 0, 7, 0]),
        (28, &[9, 0, 0, 0, 0x80, 0]),
        (50, &[10, 0, 1, 0, 0, 0]),
        (508, &[0xee, 2, 0x37, 0xa3]),
    ]);
    assert_eq!(write(&rules), expected);
    assert_eq!(read(&expected), Ok(rules));
}

#[test]
fn eight_positives_and_the_mark_are_0x88() {
    for (text, count) in [
        ("~9 < 1 2 3 4 5 6 7 8", 0x88),
        ("9 < 1 2 3 4 5 6 7 8", 8),
        ("~9 < !1 !2 !3 !4 !5 !6 !7 !8", 0x80),
        ("~9 < 1 !1", 0x81),
    ] {
        let bytes = write(&program(&[text]));
        assert_eq!(bytes[10], count, "{text}");
        assert_eq!(read(&bytes), Ok(program(&[text])));
    }
}

#[test]
fn loading_hands_back_the_marks_and_the_labels_that_they_leave() {
    let table = table(&["~1 <", "2 < !1", "~3 < 2"]);
    let mut bytes = [0; 512];
    assert_eq!(calls::save(&table, &mut bytes), Ok(512));
    assert_eq!([bytes[10], bytes[32], bytes[54]], [0x80, 0, 0x81]);
    assert_eq!(calls::load(&bytes), (Ok(()), table));
}

#[test]
fn the_places_of_a_block_follow_each_other_from_byte_6_to_490() {
    let bytes = write(&facts(23));
    for slot in 0..22 {
        let place = &bytes[6 + 22 * slot..][..22];
        assert_eq!(place[..6], [slot as u8, 0, slot as u8, 0, 0, 0]);
        assert_eq!(place[6..], [0; 16]);
    }
    assert_eq!(bytes[490..508], [0; 18]);
    assert_eq!(bytes[512..524], [1, 0, 2, 0, 1, 0, 22, 0, 22, 0, 0, 0]);
    assert_eq!(bytes[524..512 + 508], [0; 496]);
}

#[test]
fn every_block_but_the_last_holds_22_records_and_the_last_what_is_left() {
    let sizes = [
        (0, 1, 0),
        (1, 1, 1),
        (21, 1, 21),
        (22, 1, 22),
        (23, 2, 1),
        (44, 2, 22),
        (45, 3, 1),
        (242, 11, 22),
        (243, 12, 1),
        (256, 12, 14),
    ];
    for (rules, blocks, last) in sizes {
        let bytes = write(&facts(rules));
        assert_eq!(bytes.len(), 512 * blocks, "{rules} rules");
        for (index, block) in bytes.chunks(512).enumerate() {
            let held = if index + 1 == blocks { last } else { 22 };
            let header = [index as u8, 0, blocks as u8, 0, held, 0];
            assert_eq!(block[..6], header, "{rules} rules");
        }
        assert_eq!(read(&bytes), Ok(facts(rules)));
    }
}

#[test]
fn both_sums_start_over_past_65535() {
    assert_eq!(sums(&[]), [1, 0]);
    assert_eq!(sums(&[0, 0, 5]), [6, 8]);
    assert_eq!(sums(&[255; 508]), [64_005, 3_830]);
    let mut random = Random::seeded(201);
    for length in 0..600 {
        let bytes: Vec<u8> = (0..length).map(|_| random.word() as u8).collect();
        let (mut a, mut b) = (1u16, 0u16);
        for &byte in &bytes {
            a = a.wrapping_add(byte.into());
            b = b.wrapping_add(a);
        }
        assert_eq!(sums(&bytes), [a, b]);
    }
}

#[test]
fn reading_what_was_written_gives_the_same_rules_in_the_same_slots() {
    let mut random = Random::seeded(202);
    let drawn = of_flavours(&mut random, 270).into_iter();
    for rules in drawn.chain(edges::programs()) {
        let bytes = write(&rules);
        assert_eq!(bytes.len(), 512 * held(&rules).count().div_ceil(22).max(1));
        assert_eq!(read(&bytes), Ok(rules));
    }
}

/// The table of what the bytes say at the places that the counts name, with nothing kept, if it can be made at all.
fn taken_as_it_stands(bytes: &[u8]) -> Option<RawTable> {
    let mut table = RawTable::empty();
    for block in bytes.chunks(512).filter(|block| block.len() == 512) {
        let number = |at: usize| u16::from_le_bytes([block[at], block[at + 1]]);
        for place in 0..usize::from(number(4)).min(22) {
            let at = 6 + 22 * place;
            let slot = table.rules.get_mut(usize::from(number(at)))?;
            let muted = block[at + 4] & 0x80 != 0;
            *slot = RawRule {
                state: if muted { MUTED } else { HELD },
                head: number(at + 2),
                positives: (block[at + 4] & 0x7f).into(),
                negatives: block[at + 5].into(),
                entries: std::array::from_fn(|entry| number(at + 6 + 2 * entry)),
            };
        }
    }
    Some(table)
}

/// That table's rules are sound and write these bytes. Nothing is asked of the bytes themselves.
fn is_what_its_table_writes(bytes: &[u8]) -> bool {
    let rules = taken_as_it_stands(bytes).and_then(|table| sound_rules(&table));
    rules.is_some_and(|rules| write(&rules) == bytes)
}

#[test]
fn a_file_is_accepted_exactly_if_it_is_the_one_that_its_table_writes() {
    let mut random = Random::seeded(203);
    let mut seen = [0, 0];
    for round in 0..60 * KINDS.len() {
        let kind = KINDS[round % KINDS.len()];
        let bytes = file(&mut random, kind);
        let answer = read(&bytes);
        assert_eq!(answer.is_ok(), is_what_its_table_writes(&bytes), "{kind:?}");
        if let Ok(rules) = &answer {
            assert_eq!(write(rules), bytes, "{kind:?}");
        }
        seen[usize::from(answer.is_ok())] += 1;
    }
    assert!(seen.iter().all(|&count| count > 400), "{seen:?}");
}

#[test]
fn loading_a_saved_table_hands_back_the_same_table() {
    let mut random = Random::seeded(204);
    for program in of_flavours(&mut random, 180) {
        let table = table_of(program);
        let mut bytes = vec![0; 12 * 512];
        let count = calls::save(&table, &mut bytes).expect("a sound table and room") as usize;
        assert_eq!(calls::load(&bytes[..count]), (Ok(()), table));
    }
}

#[test]
fn saving_answers_the_number_of_bytes_and_later_ones_stay() {
    let table = table(&["1 <", "2 < 1"]);
    let file = write(&program(&["1 <", "2 < 1"]));
    let mut buffer = [9; 600];
    assert_eq!(calls::save(&table, &mut buffer), Ok(512));
    assert_eq!((&buffer[..512], &buffer[512..]), (&file[..], &[9; 88][..]));
    let mut exact = [9; 512];
    assert_eq!(calls::save(&table, &mut exact), Ok(512));
    assert_eq!(exact[..], file);
}

#[test]
fn saving_asks_for_a_sound_table_and_then_for_room_and_writes_nothing_if_refused() {
    let mut table = table(&["1 <"]);
    let mut short = [9; 511];
    let needed = Refusal::BufferTooShort { needed: 512 };
    assert_eq!(calls::save(&table, &mut short), Err(needed));
    assert_eq!(calls::save(&RawTable::empty(), &mut []), Err(needed));
    table.kept[0].depth = 2;
    assert_eq!(
        calls::save(&table, &mut short),
        Err(Refusal::TableUnsound),
        "though there is no room either"
    );
    assert_eq!(short, [9; 511]);
}

#[test]
fn a_refused_load_hands_back_the_empty_table() {
    let file = write(&program(&["1 <"]));
    for (bytes, refusal) in [
        (&file[..511], Refusal::WrongLength),
        (&[0; 512][..], Refusal::WrongChecksum),
    ] {
        assert_eq!(calls::load(bytes), (Err(refusal), RawTable::empty()));
    }
}
