//! The generator of files: what each kind meets, and that a seed repeats.

use oracle::calls::Call;
use oracle::file::read;
use oracle::generate::calls::Calls;
use oracle::generate::files::{file, Kind, KINDS};
use oracle::generate::words::{list, Ending};
use oracle::random::Random;
use oracle::replay::replay;
use oracle::rules::{held, muted};
use oracle::table::RawTable;
use std::collections::BTreeMap;

/// How often files of the kind meet each refusal; 0 stands for those that are accepted.
fn met(random: &mut Random, kind: Kind, count: usize) -> BTreeMap<u32, usize> {
    let mut met = BTreeMap::new();
    for _ in 0..count {
        let number = read(&file(random, kind)).err().unwrap_or(0);
        *met.entry(number).or_default() += 1;
    }
    met
}

#[test]
fn whole_files_are_accepted_and_have_the_records_that_they_are_called_after() {
    let mut random = Random::seeded(211);
    let sizes = [
        (Kind::NoRecord, 0),
        (Kind::OneRecord, 1),
        (Kind::FullBlock, 22),
        (Kind::FullBlockAndOne, 23),
        (Kind::TwoFullBlocks, 44),
        (Kind::FullTable, 256),
    ];
    for (kind, size) in sizes {
        for _ in 0..20 {
            let rules = read(&file(&mut random, kind)).expect("a whole file");
            assert_eq!(held(&rules).count(), size, "{kind:?}");
        }
    }
    for _ in 0..20 {
        let one = read(&file(&mut random, Kind::OneMuted)).expect("a whole file");
        assert_eq!(muted(&one).count(), 1);
        let all = read(&file(&mut random, Kind::AllMuted)).expect("a whole file");
        assert_eq!(muted(&all).count(), held(&all).count());
    }
    for kind in KINDS.into_iter().filter(|kind| !kind.is_damaged()) {
        assert_eq!(met(&mut random, kind, 20), BTreeMap::from([(0, 20)]));
    }
}

/// The damages that mostly meet each refusal.
const FOR_16: [Kind; 2] = [Kind::GarbageOfOtherLength, Kind::ThirteenBlocks];
const FOR_17: [Kind; 4] = [
    Kind::BitFlipped,
    Kind::ByteChanged,
    Kind::OtherSums,
    Kind::Garbage,
];
const FOR_18: [Kind; 8] = [
    Kind::BlocksSwapped,
    Kind::Doubled,
    Kind::GarbageSummed,
    Kind::WrongIndex,
    Kind::WrongBlockCount,
    Kind::WrongRecordCount,
    Kind::ShortBlock,
    Kind::EmptyLastBlock,
];
const FOR_19: [Kind; 19] = [
    Kind::ByteChangedSummed,
    Kind::UnusedPlace,
    Kind::BehindPlaces,
    Kind::UnusedEntry,
    Kind::SlotsSwapped,
    Kind::SlotTwice,
    Kind::SlotTooLarge,
    Kind::HeadTooLarge,
    Kind::EntryTooLarge,
    Kind::TooManyEntries,
    Kind::MarkedTooMany,
    Kind::NegativeMarked,
    Kind::RepeatedEntry,
    Kind::Descending,
    Kind::SameRule,
    Kind::SameRuleDescending,
    Kind::LoopOfOne,
    Kind::LongerLoop,
    Kind::TooManyRecords,
];

#[test]
fn each_damage_meets_the_refusal_that_it_is_for() {
    let mut random = Random::seeded(212);
    let mostly: [(u32, &[Kind]); 4] = [(16, &FOR_16), (17, &FOR_17), (18, &FOR_18), (19, &FOR_19)];
    for (number, kinds) in mostly {
        for &kind in kinds {
            let met = met(&mut random, kind, 200);
            let share = met.get(&number).copied().unwrap_or(0);
            assert!(share > 100, "{kind:?}: {met:?}");
        }
    }
}

#[test]
fn some_damages_meet_several_refusals_or_make_another_table() {
    let mut random = Random::seeded(213);
    let several = [
        (Kind::Cut, vec![16, 18]),
        (Kind::Lengthened, vec![16, 17, 18]),
        (Kind::Doubled, vec![16, 18]),
        (Kind::WrongRecordCount, vec![18, 19]),
        (Kind::ByteChangedSummed, vec![0, 18, 19]),
        (Kind::MovedEnd, vec![0, 19]),
        (Kind::MarksChanged, vec![0]),
        (Kind::Several, vec![16, 17, 18, 19]),
    ];
    for (kind, numbers) in several {
        let met = met(&mut random, kind, 400);
        for number in numbers {
            assert!(met.contains_key(&number), "{kind:?}: {met:?}");
        }
    }
}

#[test]
fn a_changed_mark_is_the_file_of_another_table() {
    let mut random = Random::seeded(216);
    let mut marked = 0;
    for _ in 0..200 {
        let rules = read(&file(&mut random, Kind::MarksChanged)).expect("a file of another table");
        marked += usize::from(muted(&rules).next().is_some());
    }
    assert!(marked > 100, "{marked}");
}

/// Has a record of the file the top bit of its positive count set? Of any bytes.
fn has_a_mark(bytes: &[u8]) -> bool {
    bytes.chunks_exact(512).any(|block| {
        let places = block[6..490].chunks(22);
        places
            .take(usize::from(block[4]))
            .any(|place| place[4] >= 0x80)
    })
}

#[test]
fn files_of_each_damage_have_marks_too() {
    let mut random = Random::seeded(217);
    for kind in FOR_19 {
        let marked = (0..60).filter(|_| has_a_mark(&file(&mut random, kind)));
        assert!(marked.count() > 10, "{kind:?}");
    }
}

#[test]
fn more_than_half_of_the_kinds_are_damaged() {
    let damaged = KINDS.iter().filter(|kind| kind.is_damaged()).count();
    assert!(2 * damaged > KINDS.len());
}

#[test]
fn calls_load_good_and_damaged_files_and_save() {
    let mut random = Random::seeded(214);
    let mut met: BTreeMap<u32, usize> = BTreeMap::new();
    let mut saves = 0;
    for _ in 0..250 {
        let mut calls = Calls::on(&RawTable::empty(), 20, 40);
        for _ in 0..100 {
            match calls.call(&mut random) {
                Call::Load { bytes } => {
                    *met.entry(read(&bytes).err().unwrap_or(0)).or_default() += 1
                }
                Call::Save => saves += 1,
                _ => {}
            }
        }
    }
    assert!(saves > 200, "{saves}");
    assert!(met[&0] > 200, "{met:?}");
    for number in [16, 17, 18, 19] {
        assert!(met.get(&number).is_some_and(|&count| count > 5), "{met:?}");
    }
}

#[test]
fn lists_of_numbers_load_good_and_damaged_files() {
    let mut random = Random::seeded(215);
    let mut with_files = 0;
    let mut answers: BTreeMap<u32, usize> = BTreeMap::new();
    for _ in 0..600 {
        let drawn = list(&mut random, Ending::Whole);
        with_files += usize::from(!drawn.files.is_empty());
        for answer in replay(&drawn.words, &drawn.files, 400).0 {
            *answers.entry(answer).or_default() += 1;
        }
    }
    assert!(with_files > 100, "{with_files}");
    for number in [16, 17, 18, 19] {
        let count = answers.get(&(65_536 + number)).copied().unwrap_or(0);
        assert!(count > 10, "{number}: {answers:?}");
    }
}

#[test]
fn a_seed_repeats_and_another_differs() {
    let files = |seed| {
        let mut random = Random::seeded(seed);
        KINDS.map(|kind| file(&mut random, kind))
    };
    assert_eq!(files(1), files(1));
    assert_ne!(files(1), files(2));
}
