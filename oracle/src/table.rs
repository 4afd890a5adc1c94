//! The raw table: integers only, so that any bytes are a table.

use crate::labels::{Label, Labelled};
use crate::limits::{ENTRIES, SLOTS};
use crate::relations::{spoiler, Side};
use crate::rules::Page;

pub const FREE: u16 = 0;
pub const HELD: u16 = 1;
pub const MUTED: u16 = 2;

/// The rule of a slot.
#[derive(Clone, Copy, PartialEq, Eq, Debug)]
pub struct RawRule {
    pub state: u16,
    pub head: u16,
    pub positives: u16,
    pub negatives: u16,
    /// The positive entries, then the negative ones, then zeros. In a sound table each list
    /// ascends.
    pub entries: [u16; ENTRIES],
}

/// What a slot keeps beside its rule.
#[derive(Clone, Copy, PartialEq, Eq, Debug)]
pub struct Kept {
    /// The depth of the head where this slot supports it, else 0.
    pub depth: u16,
    /// The place of the entry that spoils the unmuted rule, from 1 over both lists, else 0.
    pub spoiler: u16,
}

#[derive(Clone, PartialEq, Eq, Debug)]
pub struct RawTable {
    /// By slot number, `SLOTS` of them.
    pub rules: Vec<RawRule>,
    /// By slot number too.
    pub kept: Vec<Kept>,
}

impl RawRule {
    /// A slot of the empty table.
    pub const EMPTY: RawRule = RawRule {
        state: FREE,
        head: 0,
        positives: 0,
        negatives: 0,
        entries: [0; ENTRIES],
    };

    /// A slot that holds the rule with its mark. The rule must pass questions 1 to 3.
    pub fn holding(page: &Page) -> RawRule {
        let rule = &page.rule;
        let mut entries = [0; ENTRIES];
        for (place, entry) in entries.iter_mut().zip(rule.entries()) {
            *place = entry as u16;
        }
        RawRule {
            state: if page.muted { MUTED } else { HELD },
            head: rule.head as u16,
            positives: rule.positives.len() as u16,
            negatives: rule.negatives.len() as u16,
            entries,
        }
    }
}

impl Kept {
    /// Of a slot of the empty table.
    pub const NOTHING: Kept = Kept {
        depth: 0,
        spoiler: 0,
    };

    /// What the slot keeps: nothing where it is free or its rule is muted.
    pub fn of(labelled: &Labelled, slot: u32) -> Kept {
        match labelled.program.get(slot as usize) {
            Some(Some(page)) if !page.muted => Kept {
                depth: supported_depth(labelled, slot, page.rule.head),
                spoiler: spoiling_place(labelled, page),
            },
            _ => Kept::NOTHING,
        }
    }
}

/// The depth of the atom if this slot supports it, else 0.
fn supported_depth(labelled: &Labelled, slot: u32, atom: u32) -> u16 {
    match labelled.label(atom) {
        Label::In {
            depth,
            slot: supporting,
        } if supporting == slot => depth as u16,
        _ => 0,
    }
}

/// The place of the rule's spoiler, where the positive list is read before the negative one and the first entry of all
/// is 1; 0 for a valid rule.
fn spoiling_place(labelled: &Labelled, page: &Page) -> u16 {
    let before = |side| match side {
        Side::Positive => 0,
        Side::Negative => page.rule.positives.len() as u32,
    };
    let place = spoiler(labelled, &page.rule).map(|found| before(found.side) + found.place + 1);
    place.unwrap_or(0) as u16
}

impl RawTable {
    /// The table in which every slot is free.
    pub fn empty() -> RawTable {
        RawTable {
            rules: vec![RawRule::EMPTY; SLOTS],
            kept: vec![Kept::NOTHING; SLOTS],
        }
    }

    /// Does a slot hold a muted rule?
    pub fn has_muted(&self) -> bool {
        self.rules.iter().any(|rule| rule.state == MUTED)
    }

    /// The table that keeps the program and what its labels give each slot to keep. The rules must pass question 1 to 3.
    pub fn keeping(labelled: &Labelled) -> RawTable {
        let mut table = RawTable::empty();
        for (place, slot_holds) in table.rules.iter_mut().zip(&labelled.program) {
            *place = slot_holds.as_ref().map_or(RawRule::EMPTY, RawRule::holding);
        }
        for (slot, kept) in (0..).zip(&mut table.kept) {
            *kept = Kept::of(labelled, slot);
        }
        table
    }
}
