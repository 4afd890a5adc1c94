//! What can be wrong with the records of a file. Where none has room for it, nothing is done.

use crate::file::{Record, MARK};
use crate::limits::{ATOMS, ENTRIES};
use crate::random::Random;

/// One of the records that are so.
fn any_that<'a>(
    random: &mut Random,
    records: &'a mut [Record],
    so: impl Fn(&Record) -> bool,
) -> Option<&'a mut Record> {
    let mut those: Vec<&mut Record> = records.iter_mut().filter(|record| so(record)).collect();
    if those.is_empty() {
        return None;
    }
    Some(those.swap_remove(random.below(those.len())))
}

/// How many entries its counts name.
fn used(record: &Record) -> usize {
    record.counts().iter().sum()
}

/// Gives the record these counts and leaves its mark.
fn put_counts(record: &mut Record, positives: usize, negatives: usize) {
    record.positives = record.positives & MARK | positives as u8;
    record.negatives = negatives as u8;
}

fn has_entries(record: &Record) -> bool {
    (1..=ENTRIES).contains(&used(record))
}

fn has_room(record: &Record) -> bool {
    used(record) < ENTRIES
}

/// Both lists of a record whose counts fit.
fn lists(record: &mut Record) -> [&mut [u16]; 2] {
    let [positives, negatives] = record.counts();
    let (positives, rest) = record.entries.split_at_mut(positives);
    [positives, &mut rest[..negatives]]
}

/// Two different places of a list that has two.
fn two_places(random: &mut Random, length: usize) -> (usize, usize) {
    let one = random.below(length);
    (one, (one + random.between(1, length - 1)) % length)
}

/// Past the limit of 256 by a little, by much, or with the same low byte.
fn too_large(random: &mut Random, stood: u16) -> u16 {
    *random.pick(&[256, 257, 511, 1_023, 65_535, stood | 256])
}

pub fn unused_entry(random: &mut Random, records: &mut [Record]) {
    if let Some(record) = any_that(random, records, has_room) {
        let place = random.between(used(record), ENTRIES - 1);
        record.entries[place] = *random.pick(&[1, 255, 256, 65_535]);
    }
}

/// The slots alone, or the whole records.
pub fn slots_swapped(random: &mut Random, records: &mut [Record]) {
    if records.len() > 1 {
        let (one, other) = two_places(random, records.len());
        let slots = (records[one].slot, records[other].slot);
        if random.percent(50) {
            records.swap(one, other);
        } else {
            (records[other].slot, records[one].slot) = slots;
        }
    }
}

pub fn slot_twice(random: &mut Random, records: &mut [Record]) {
    if records.len() > 1 {
        let place = random.between(1, records.len() - 1);
        records[place].slot = records[place - 1].slot;
    }
}

/// Of the last record for the most part, so that the slots ascend.
pub fn slot_too_large(random: &mut Random, records: &mut [Record]) {
    let any = random.percent(20);
    let last = records.last().map(|record| record.slot);
    if let Some(record) = any_that(random, records, |record| any || Some(record.slot) == last) {
        record.slot = too_large(random, record.slot);
    }
}

pub fn head_too_large(random: &mut Random, records: &mut [Record]) {
    if let Some(record) = any_that(random, records, |_| true) {
        record.head = too_large(random, record.head);
    }
}

/// The last entry of a list, so that the list ascends.
pub fn entry_too_large(random: &mut Random, records: &mut [Record]) {
    if let Some(record) = any_that(random, records, has_entries) {
        let mut lasts: Vec<&mut u16> = lists(record)
            .into_iter()
            .filter_map(<[u16]>::last_mut)
            .collect();
        let place = random.below(lasts.len());
        *lasts[place] = too_large(random, *lasts[place]);
    }
}

/// Gives the record eight different entries, ascending, that are no rule's head: as lists nothing is wrong with them,
/// and they close no loop.
fn fill(record: &mut Record, heads: &[u16]) {
    let others = (0..ATOMS as u16).filter(|atom| !heads.contains(atom));
    for (entry, atom) in record.entries.iter_mut().zip(others) {
        *entry = atom;
    }
    put_counts(record, ENTRIES, 0);
}

/// Puts counts that come to more than 8 into a record, which half of the time has eight entries, so that nothing else
/// is wrong with it. Answers the record.
fn put_too_many<'a>(random: &mut Random, records: &'a mut [Record]) -> Option<&'a mut Record> {
    let heads: Vec<u16> = records.iter().map(|record| record.head).collect();
    let record = any_that(random, records, |record| used(record) <= ENTRIES)?;
    if random.percent(50) {
        fill(record, &heads);
    }
    let [p, n] = record.counts().map(|count| count as u8);
    let counts = [
        (9, 0),
        (0, 9),
        (8, 1),
        (1, 8),
        (127, n),
        (p, 255),
        (127, 9),
        (0, 128),
        (p, n + 128),
        (9 + n, (p + n).wrapping_sub(9 + n)),
        (9 + n, (p + n + 128).wrapping_sub(9 + n)),
    ];
    let (positives, negatives) = *random.pick(&counts);
    put_counts(record, positives.into(), negatives.into());
    Some(record)
}

pub fn too_many_entries(random: &mut Random, records: &mut [Record]) {
    put_too_many(random, records);
}

pub fn marked_too_many(random: &mut Random, records: &mut [Record]) {
    if let Some(record) = put_too_many(random, records) {
        record.positives |= MARK;
    }
}

/// Of one record, some or all of them.
pub fn marks_changed(random: &mut Random, records: &mut [Record]) {
    let share = *random.pick(&[0, 30, 100]);
    let one = random.below(records.len().max(1));
    for (place, record) in records.iter_mut().enumerate() {
        if place == one || random.percent(share) {
            record.positives ^= MARK;
        }
    }
}

/// Half of the time the record has eight entries, so that nothing else is wrong with it.
pub fn negative_marked(random: &mut Random, records: &mut [Record]) {
    let heads: Vec<u16> = records.iter().map(|record| record.head).collect();
    if let Some(record) = any_that(random, records, |record| record.negatives < MARK) {
        if random.percent(50) {
            fill(record, &heads);
        }
        record.negatives += MARK;
    }
}

pub fn moved_end(random: &mut Random, records: &mut [Record]) {
    if let Some(record) = any_that(random, records, has_entries) {
        let [p, n] = record.counts();
        let up = n > 0 && (p == 0 || random.percent(50));
        let (p, n) = if up { (p + 1, n - 1) } else { (p - 1, n + 1) };
        put_counts(record, p, n);
    }
}

pub fn repeated_entry(random: &mut Random, records: &mut [Record]) {
    let so = |record: &Record| has_entries(record) && has_room(record);
    if let Some(record) = any_that(random, records, so) {
        let place = random.below(used(record));
        record.entries.copy_within(place..ENTRIES - 1, place + 1);
        if place < record.counts()[0] {
            record.positives += 1;
        } else {
            record.negatives += 1;
        }
    }
}

fn has_a_list_of_two(record: &Record) -> bool {
    has_entries(record) && record.counts().iter().any(|&count| count > 1)
}

/// Swaps two entries of a list of a record that has a list of two.
fn swap_entries(random: &mut Random, record: &mut Record) {
    let mut long: Vec<&mut [u16]> = lists(record)
        .into_iter()
        .filter(|list| list.len() > 1)
        .collect();
    let list = long.swap_remove(random.below(long.len()));
    let (one, other) = two_places(random, list.len());
    list.swap(one, other);
}

pub fn descending(random: &mut Random, records: &mut [Record]) {
    if let Some(record) = any_that(random, records, has_a_list_of_two) {
        swap_entries(random, record);
    }
}

/// Two slots hold the rule of one of them, each with the mark of that one or with its own.
fn copied(random: &mut Random, records: &mut [Record], so: fn(&Record) -> bool) -> Option<usize> {
    let rule = any_that(random, records, so)?.clone();
    let others: Vec<usize> = (0..records.len())
        .filter(|&place| records[place].slot != rule.slot)
        .collect();
    if others.is_empty() {
        return None;
    }
    let place = *random.pick(&others);
    let mark = records[place].positives & MARK;
    records[place] = Record {
        slot: records[place].slot,
        ..rule
    };
    if random.percent(50) {
        records[place].positives = records[place].positives % MARK + mark;
    }
    Some(place)
}

pub fn same_rule(random: &mut Random, records: &mut [Record]) {
    copied(random, records, |_| true);
}

pub fn same_rule_descending(random: &mut Random, records: &mut [Record]) {
    if let Some(place) = copied(random, records, has_a_list_of_two) {
        swap_entries(random, &mut records[place]);
    }
}

/// Puts the atom where it belongs in one of the lists of a record that has room, unless it stands there.
fn put_entry(record: &mut Record, negative: bool, atom: u16) {
    let [mut positives, mut negatives] = lists(record).map(|list| list.to_vec());
    let list = if negative {
        &mut negatives
    } else {
        &mut positives
    };
    if let Err(place) = list.binary_search(&atom) {
        list.insert(place, atom);
    }
    put_counts(record, positives.len(), negatives.len());
    for (entry, atom) in record
        .entries
        .iter_mut()
        .zip(positives.into_iter().chain(negatives))
    {
        *entry = atom;
    }
}

pub fn loop_of_one(random: &mut Random, records: &mut [Record]) {
    if let Some(record) = any_that(random, records, has_room) {
        put_entry(record, true, record.head);
    }
}

/// Each of some rules gets the head of the next as an entry, and the last that of the first; one of these entries is
/// negative.
pub fn longer_loop(random: &mut Random, records: &mut [Record]) {
    let mut those: Vec<&mut Record> = records
        .iter_mut()
        .filter(|record| has_room(record))
        .collect();
    random.shuffle(&mut those);
    those.truncate(random.between(2, 6));
    let heads: Vec<u16> = those.iter().map(|record| record.head).collect();
    let negative = random.below(heads.len().max(1));
    for (place, record) in those.into_iter().enumerate() {
        put_entry(record, place == negative, heads[(place + 1) % heads.len()]);
    }
}

/// So many records, if there is one: those there are again behind the last with other heads, in slots that count on or
/// in their own.
pub fn extended(random: &mut Random, records: &mut Vec<Record>, count: usize) {
    let first = records.clone();
    let counts_on = random.percent(50);
    for (place, record) in (records.len()..count).zip(first.iter().cycle()) {
        records.push(Record {
            slot: if counts_on { place as u16 } else { record.slot },
            head: (record.head + 1) % ATOMS as u16,
            ..record.clone()
        });
    }
}
