//! Tables whose rules are sound and in which a slot keeps what it should not: each way by its name.

use crate::generate::faults::any_of;
use crate::labels::{Label, Labelled};
use crate::limits::{ENTRIES, SLOTS};
use crate::random::Random;
use crate::rules::{unmuted, Page, Rule};
use crate::table::{Kept, RawTable};
use std::collections::BTreeSet;

/// What is wrong with the depth or with the spoiler that a slot keeps.
#[derive(Clone, Copy, PartialEq, Eq, PartialOrd, Ord, Debug)]
pub enum Wrong {
    /// A depth in the slot of an unmuted rule whose head is out.
    DepthOfOut,
    /// A depth in a slot that does not support its head, beside that of the supporting slot.
    TwoDepths,
    /// A depth in a slot that does not support its head, in the stead of the supporting slot's.
    MovedDepth,
    /// No depth where the slot supports its head, and none in another slot with this head.
    NoDepth,
    SmallDepth,
    LargeDepth,
    DepthInFree,
    DepthInMuted,
    SpoilerInFree,
    SpoilerInMuted,
    /// An entry that spoils, behind the first one in its list, or in the negative list behind others.
    LaterSpoiler,
    /// The first entry of the negative list that spoils, where one of the positive list does.
    NegativeFirst,
    /// An entry that does not spoil.
    NotSpoiling,
    /// A place behind both lists.
    PastTheLists,
    /// No place, where an entry spoils.
    NoSpoiler,
}

pub const WRONGS: [Wrong; 15] = [
    Wrong::DepthOfOut,
    Wrong::TwoDepths,
    Wrong::MovedDepth,
    Wrong::NoDepth,
    Wrong::SmallDepth,
    Wrong::LargeDepth,
    Wrong::DepthInFree,
    Wrong::DepthInMuted,
    Wrong::SpoilerInFree,
    Wrong::SpoilerInMuted,
    Wrong::LaterSpoiler,
    Wrong::NegativeFirst,
    Wrong::NotSpoiling,
    Wrong::PastTheLists,
    Wrong::NoSpoiler,
];

/// The places of the entries that spoil the rule, from 1 over both lists: those of the positive list, and those of the
/// negative one.
fn spoiling(labelled: &Labelled, rule: &Rule) -> [Vec<u16>; 2] {
    let needed = (1..).zip(&rule.positives);
    let blocking = (1 + rule.positives.len() as u16..).zip(&rule.negatives);
    [
        needed
            .filter(|(_, &atom)| !labelled.is_in(atom))
            .map(|(place, _)| place)
            .collect(),
        blocking
            .filter(|(_, &atom)| labelled.is_in(atom))
            .map(|(place, _)| place)
            .collect(),
    ]
}

/// The slots of unmuted rules with this head that keep a depth.
fn deep_slots(table: &RawTable, labelled: &Labelled, head: u32) -> Vec<u32> {
    unmuted(&labelled.program)
        .filter(|&(slot, rule)| rule.head == head && table.kept[slot as usize].depth != 0)
        .map(|(slot, _)| slot)
        .collect()
}

/// What is wrong with the depth that the slot of an unmuted rule keeps, which is another than the right one.
fn wrong_depth(table: &RawTable, labelled: &Labelled, slot: u32, head: u32) -> Wrong {
    let depth: u32 = table.kept[slot as usize].depth.into();
    let Label::In {
        depth: right,
        slot: supporting,
    } = labelled.label(head)
    else {
        return Wrong::DepthOfOut;
    };
    let others = deep_slots(table, labelled, head);
    match (slot == supporting, depth) {
        (true, 0) if others.is_empty() => Wrong::NoDepth,
        (true, 0) => Wrong::MovedDepth,
        (true, _) if depth < right => Wrong::SmallDepth,
        (true, _) => Wrong::LargeDepth,
        (false, _) if others.contains(&supporting) => Wrong::TwoDepths,
        (false, _) => Wrong::MovedDepth,
    }
}

/// What is wrong with the place that the slot of an unmuted rule keeps, which is another than the right one.
fn wrong_spoiler(labelled: &Labelled, place: u16, rule: &Rule) -> Wrong {
    let [needed, blocking] = spoiling(labelled, rule);
    match place {
        0 => Wrong::NoSpoiler,
        _ if usize::from(place) > rule.entries().count() => Wrong::PastTheLists,
        _ if !needed.is_empty() && blocking.first() == Some(&place) => Wrong::NegativeFirst,
        _ if needed.contains(&place) || blocking.contains(&place) => Wrong::LaterSpoiler,
        _ => Wrong::NotSpoiling,
    }
}

/// What is wrong with what the slot keeps.
fn wrong_in(table: &RawTable, labelled: &Labelled, slot: u32) -> Vec<Wrong> {
    let (right, kept) = (Kept::of(labelled, slot), table.kept[slot as usize]);
    let (depth, spoiler) = match &labelled.program[slot as usize] {
        None => (Wrong::DepthInFree, Wrong::SpoilerInFree),
        Some(page) if page.muted => (Wrong::DepthInMuted, Wrong::SpoilerInMuted),
        Some(Page { rule, .. }) => (
            wrong_depth(table, labelled, slot, rule.head),
            wrong_spoiler(labelled, kept.spoiler, rule),
        ),
    };
    let differs = [
        (depth, kept.depth != right.depth),
        (spoiler, kept.spoiler != right.spoiler),
    ];
    let wrong = differs.into_iter().filter(|(_, differs)| *differs);
    wrong.map(|(wrong, _)| wrong).collect()
}

/// Each way in which a table keeps what its rules do not give, where these are sound.
pub fn wrongs(table: &RawTable, labelled: &Labelled) -> BTreeSet<Wrong> {
    let slots = 0..SLOTS as u32;
    slots
        .flat_map(|slot| wrong_in(table, labelled, slot))
        .collect()
}

/// Numbers that a slot could keep as its head's depth or as its spoiler's place.
fn numbers(random: &mut Random, right: u16) -> Vec<u16> {
    let mut numbers: Vec<u16> = (0..=ENTRIES as u16 + 1).collect();
    numbers.extend([right.wrapping_sub(1), right + 1, right + 256]);
    numbers.extend([128, 255, 256, 257, 32_768, 65_535, random.word() as u16]);
    numbers
}

/// What the slot could keep in the stead of what it does: another depth, or another spoiler.
fn instead(random: &mut Random, labelled: &Labelled, slot: u32) -> Vec<Kept> {
    let right = Kept::of(labelled, slot);
    let head = labelled.program[slot as usize].as_ref();
    let of_head = match head.map(|page| labelled.label(page.rule.head)) {
        Some(Label::In { depth, .. }) => depth as u16,
        _ => right.depth,
    };
    let depths = numbers(random, of_head).into_iter().chain([of_head]);
    let spoilers = numbers(random, right.spoiler).into_iter();
    let mut kept: Vec<Kept> = depths.map(|depth| Kept { depth, ..right }).collect();
    kept.extend(spoilers.map(|spoiler| Kept { spoiler, ..right }));
    kept
}

/// The table in which one slot keeps what is wrong in this way; where a depth is moved, the supporting slot keeps none.
/// `None` where it has no room for it.
pub fn kept_wrong(random: &mut Random, labelled: &Labelled, wrong: Wrong) -> Option<RawTable> {
    let mut slots: Vec<u32> = (0..SLOTS as u32).collect();
    random.shuffle(&mut slots);
    slots
        .into_iter()
        .find_map(|slot| kept_wrong_in(random, labelled, slot, wrong))
}

fn kept_wrong_in(
    random: &mut Random,
    labelled: &Labelled,
    slot: u32,
    wrong: Wrong,
) -> Option<RawTable> {
    let mut table = RawTable::keeping(labelled);
    let head = labelled.program[slot as usize].as_ref();
    if let (
        Some(Label::In {
            slot: supporting, ..
        }),
        Wrong::MovedDepth,
    ) = (head.map(|page| labelled.label(page.rule.head)), wrong)
    {
        table.kept[supporting as usize].depth = 0;
    }
    let mut so = Vec::new();
    for kept in instead(random, labelled, slot) {
        table.kept[slot as usize] = kept;
        if wrong_in(&table, labelled, slot) == [wrong] {
            so.push(kept);
        }
    }
    table.kept[slot as usize] = any_of(random, so)?;
    Some(table)
}
