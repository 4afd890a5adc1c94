//! Lists of any length, and buffers entry for entry.

mod common;

use common::{table, Random};
use yeqontur::{List, Refusal, Table};

#[test]
fn lists_of_no_entry() {
    let mut t = Table::new();
    assert_eq!(t.add(0, &[], &[]), Ok(0));
    assert_eq!(t.add(0, &Vec::new(), &Vec::new()), Err(Refusal::SameRule));
    assert_eq!(t.list_into(List::Consequences, 0, &mut []), Ok(0));
    let short = t.list_into(List::Reason, 0, &mut []);
    assert_eq!(short, Err(Refusal::BufferTooShort { needed: 1 }));
}

#[test]
fn huge_lists_are_refused_by_their_length() {
    let mut t = table(&[(1, &[], &[])]);
    let before = t.clone();
    for huge in [vec![0; 9], vec![u32::MAX; 1_000_000], vec![5; 30_000_000]] {
        assert_eq!(t.add(2, &huge, &[]), Err(Refusal::TooManyEntries));
        assert_eq!(t.add(2, &[], &huge), Err(Refusal::TooManyEntries));
        assert_eq!(t.add(2, &huge, &huge), Err(Refusal::TooManyEntries));
        assert_eq!(t.add(256, &huge, &huge), Err(Refusal::HeadTooLarge));
        let replaced = t.replace(0, 2, &huge, &huge);
        assert_eq!(replaced, Err(Refusal::TooManyEntries));
        assert_eq!(t.replace(1, 2, &huge, &huge), Err(Refusal::SlotFree));
    }
    assert_eq!(t, before);
}

#[test]
fn numbers_past_a_narrow_type_are_not_folded() {
    let mut t = table(&[(0, &[], &[])]);
    for number in [256, 257, 65_535, 65_536, 65_537, u32::MAX] {
        assert_eq!(t.add(number, &[], &[]), Err(Refusal::HeadTooLarge));
        assert_eq!(t.add(1, &[number], &[]), Err(Refusal::EntryTooLarge));
        assert_eq!(t.add(1, &[], &[number]), Err(Refusal::EntryTooLarge));
        assert_eq!(t.remove(number), Err(Refusal::SlotTooLarge));
        let replaced = t.replace(number, 1, &[], &[]);
        assert_eq!(replaced, Err(Refusal::SlotTooLarge));
        assert_eq!(t.replace(0, number, &[], &[]), Err(Refusal::HeadTooLarge));
        let replaced = t.replace(0, 1, &[number], &[]);
        assert_eq!(replaced, Err(Refusal::EntryTooLarge));
        let replaced = t.replace(0, 1, &[], &[number]);
        assert_eq!(replaced, Err(Refusal::EntryTooLarge));
        assert_eq!(t.mute(number), Err(Refusal::SlotTooLarge));
        assert_eq!(t.unmute(number), Err(Refusal::SlotTooLarge));
        assert_eq!(t.spoiler(number), Err(Refusal::SlotTooLarge));
        assert_eq!(t.rule(number), Err(Refusal::SlotTooLarge));
        assert_eq!(t.label(number), Err(Refusal::AtomTooLarge));
        assert_eq!(t.why(number), Err(Refusal::AtomTooLarge));
        assert_eq!(t.reason(number), Err(Refusal::AtomTooLarge));
    }
    assert_eq!(t.remove(1), Err(Refusal::SlotFree));
    assert_eq!(t.rule(255), Err(Refusal::SlotFree));
}

/// A buffer of this length: either the list is written to its front and the rest stays, or none of it is written.
fn lent(t: &Table, which: List, atom: u32, list: &[u32], length: usize) {
    let blank: Vec<u32> = (0..length as u32).map(|i| 1_000_000 + i).collect();
    let mut buffer = blank.clone();
    let told = t.list_into(which, atom, &mut buffer);
    let needed = list.len();
    if length < needed {
        assert_eq!(told, Err(Refusal::BufferTooShort { needed }));
        assert_eq!(buffer, blank);
    } else {
        assert_eq!(told, Ok(needed));
        assert_eq!(buffer, [list, &blank[needed..]].concat());
    }
}

#[test]
fn buffers_entry_for_entry() {
    let mut random = Random(4);
    for _ in 0..40 {
        let t = random.muted_table(60, 10, 4);
        for atom in 0..11 {
            let lists = [
                (List::Justifications, t.justifications(atom)),
                (List::Consequences, t.consequences(atom)),
                (List::Repercussions, t.repercussions(atom)),
                (List::Reason, t.reason(atom)),
            ];
            for (which, list) in lists {
                match list {
                    Ok(list) => (0..list.len() + 3).for_each(|n| lent(&t, which, atom, &list, n)),
                    Err(refusal) => assert_eq!(refusal, Refusal::AtomNotIn),
                }
            }
        }
    }
}

#[test]
fn a_reason_is_asked_of_an_in_atom_before_the_buffer() {
    let t = table(&[(1, &[2], &[])]);
    let mut buffer = [9; 2];
    for atom in [1, 200] {
        let told = t.list_into(List::Reason, atom, &mut buffer[..0]);
        assert_eq!(told, Err(Refusal::AtomNotIn));
    }
    assert_eq!(buffer, [9; 2]);
}
