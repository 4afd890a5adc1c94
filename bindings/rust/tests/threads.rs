//! Threads with small stacks, as the guide claims: 128 KB for calls (160 KB for those of a checklist in a debug build),
//! more for the tree of the deepest table.

use std::thread::{Builder, JoinHandle};
use yeqontur::{Checklist, Label, Table};

/// The longest chain: each atom from the one before, atom 0 a fact.
fn chain() -> Table {
    let mut table = Table::new();
    for atom in 0..256_u32 {
        let before: Vec<u32> = atom.checked_sub(1).into_iter().collect();
        assert_eq!(table.add(atom, &before, &[]), Ok(atom));
    }
    table
}

fn with_stack(bytes: usize, work: fn()) -> JoinHandle<()> {
    let thread = Builder::new().stack_size(bytes);
    thread.spawn(work).expect("a thread")
}

/// Every call on the longest chain.
fn calls() {
    let mut table = chain();
    let last = Label::In {
        depth: 256,
        slot: 255,
    };
    assert_eq!(table.label(255), Ok(last));
    assert!(table.spoiler(255).is_ok());
    assert_eq!(table.justifications(255), Ok(vec![255]));
    assert_eq!(table.consequences(254), Ok(vec![255]));
    assert_eq!(table.repercussions(0), Ok((1..256).collect()));
    assert_eq!(table.reason(255), Ok((0..256).collect()));
    assert!(Table::load(&table.save()).as_ref() == Ok(&table));
    assert_eq!(table.replace(255, 255, &[253, 254], &[]), Ok(()));
    assert_eq!(table.label(255), Ok(last));
    assert_eq!(table.mute(0), Ok(()));
    assert_eq!(table.label(255), Ok(Label::Out));
    assert_eq!(table.unmute(0), Ok(()));
    assert_eq!(table.label(255), Ok(last));
    assert_eq!(table.remove(0), Ok(()));
    assert_eq!(table.labels().filter(|(_, l)| l.is_in()).count(), 0);
}

/// Every call of the longest checklist.
fn checklist_calls() {
    let mut checklist = Checklist::open(60).expect("60 files");
    for file in 1..=60 {
        assert_eq!(checklist.sent(file), Ok(()));
    }
    assert_eq!(checklist.skipped(60), Ok(()));
    assert_eq!(checklist.missing(), [60]);
    assert_eq!(checklist.withdraw(60), Ok(()));
    assert!(checklist.complete());
}

/// The deepest trees: of a chain that is in; of one that is out, for want of the fact at its end; and where that end
/// waits for the beginning.
fn trees() {
    let mut table = chain();
    let in_atom = table.why(255).expect("a tree");
    assert!(in_atom.label.is_in());
    assert_eq!(table.mute(0), Ok(()));
    let out = table.why(255).expect("a tree");
    assert_eq!(out.label, Label::Out);
    assert_eq!(table.replace(0, 0, &[255], &[]), Ok(()));
    let circle = table.why(255).expect("a tree");
    assert_eq!(circle.label, Label::Out);
    assert!(circle != out);
}

fn joined(threads: Vec<JoinHandle<()>>) {
    for thread in threads {
        thread.join().expect("right answers");
    }
}

#[test]
fn calls_from_8_threads_of_128_kb() {
    joined((0..8).map(|_| with_stack(128 << 10, calls)).collect());
    let kb = if cfg!(debug_assertions) { 160 } else { 128 };
    joined(vec![with_stack(kb << 10, checklist_calls)]);
}

#[test]
fn the_deepest_trees() {
    let kb = if cfg!(debug_assertions) { 1536 } else { 384 };
    joined(vec![with_stack(kb << 10, trees)]);
}
