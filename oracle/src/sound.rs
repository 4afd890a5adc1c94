//! Question 15: is a raw table sound (specification 3.4)?

use crate::labels::Labelled;
use crate::limits::ENTRIES;
use crate::loops::has_loop_through_negation;
use crate::questions::rule_from;
use crate::rules::{held, Page, Program, Rule};
use crate::table::{Kept, RawRule, RawTable, FREE, HELD, MUTED};
use std::collections::HashSet;

/// A slot that no sound table has.
struct Wrong;

/// What a slot holds: `Ok(None)` for a free one that stands as in the empty table, `Ok` with
/// the rule and its mark for a held one that passes 1 to 4 with its lists ascending and its
/// filler as in the empty table. No state has another number than these three.
fn slot_content(raw: &RawRule) -> Result<Option<Page>, Wrong> {
    let page = match raw.state {
        FREE if *raw == RawRule::EMPTY => return Ok(None),
        HELD => held_rule(raw).map(Page::unmuted),
        MUTED => held_rule(raw).map(Page::muted),
        _ => None,
    };
    page.map(Some).ok_or(Wrong)
}

fn held_rule(raw: &RawRule) -> Option<Rule> {
    let used = raw.positives as usize + raw.negatives as usize;
    if used > ENTRIES {
        return None;
    }
    let (listed, filler) = raw.entries.split_at(used);
    if filler != &RawRule::EMPTY.entries[used..] {
        return None;
    }
    let entries: Vec<u32> = listed.iter().map(|&entry| entry.into()).collect();
    let (positives, negatives) = entries.split_at(raw.positives.into());
    let rule = rule_from(raw.head.into(), positives, negatives).ok()?;
    let ascending = rule.positives.iter().eq(positives) && rule.negatives.iter().eq(negatives);
    ascending.then_some(rule)
}

fn no_two_same(program: &[Option<Page>]) -> bool {
    let mut earlier = HashSet::new();
    held(program).all(|(_, rule)| earlier.insert(rule))
}

/// The program that the table holds, if each rule passes 1 to 4 and has ascending lists, and no
/// two are the same, muted or not.
pub fn fitting_rules(table: &RawTable) -> Option<Program> {
    let slots: Result<Program, Wrong> = table.rules.iter().map(slot_content).collect();
    slots.ok().filter(|program| no_two_same(program))
}

/// The program, if all that soundness asks of the rules is so: there is no loop through a
/// negation either.
pub fn sound_rules(table: &RawTable) -> Option<Program> {
    fitting_rules(table).filter(|program| !has_loop_through_negation(program))
}

/// The program and its labels, if the table is sound: the rules are, and each slot keeps what is
/// defined: the depth of its head if it supports it, the place of its spoiler, and nothing else.
pub fn sound_content(table: &RawTable) -> Option<Labelled> {
    let labelled = Labelled::of(sound_rules(table)?);
    let mut slots = (0..).zip(&table.kept);
    let as_defined = slots.all(|(slot, &kept)| kept == Kept::of(&labelled, slot));
    as_defined.then_some(labelled)
}

pub fn sound(table: &RawTable) -> bool {
    sound_content(table).is_some()
}
