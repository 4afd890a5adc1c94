//! Tables with a fault that touches more than one field, all else being as it should. Where
//! the table drawn has no room for the fault it comes out sound: soundness decides.

use crate::generate::marks::{any_marked, some_marked};
use crate::generate::programs::{program, FLAVOURS};
use crate::generate::{mark_faults, table_of};
use crate::labels::{Label, Labelled};
use crate::limits::ENTRIES;
use crate::loops::has_loop_through_negation;
use crate::random::Random;
use crate::relations::spoiler;
use crate::rules::{held, Page, Rule};
use crate::table::{Kept, RawRule, RawTable};

#[derive(Clone, Copy, PartialEq, Eq, Debug)]
pub enum Fault {
    /// A rule stands in two slots.
    SameRule,
    /// An atom stands twice in a list, once beside the other.
    RepeatedEntry,
    /// Two entries of a list stand in each other's place.
    Swapped,
    /// A rule stands in two slots, in one of them with two entries swapped.
    SameSwapped,
    /// The end of the positive list is moved, so that an entry stands in the other list. Where
    /// both lists ascend still, the table is sound: it keeps what the rule that it has gives.
    MovedEnd,
    /// A rule closes a loop through a negation, yet there is one admissible model.
    Loop,
    /// A rule is gone and the other slots keep what they kept before.
    Stale,
    /// A rule that no entry spoils keeps the depth of its head, but it isn't the supporting one. It
    /// may be muted.
    OtherSupport,
    /// A rule stands in two slots, and is muted in one of them or in both.
    SameMuted,
    /// A muted rule closes a loop through a negation.
    MutedLoop,
    /// A rule is muted and every slot keeps what it kept before.
    MutedStale,
    /// A rule is unmuted and every slot keeps what it kept before.
    UnmutedStale,
    /// Slots keep what they would if none were muted; those of muted rules too, half of the time.
    MutedCounted,
    /// A held rule has a state that there is none of.
    OtherState,
    /// A free slot has the state of a rule, muted or not. Muted it is a fact, and where no other slot
    /// holds that, the table is sound.
    HeldFree,
}

pub const FAULTS: [Fault; 15] = [
    Fault::SameRule,
    Fault::RepeatedEntry,
    Fault::Swapped,
    Fault::SameSwapped,
    Fault::MovedEnd,
    Fault::Loop,
    Fault::Stale,
    Fault::OtherSupport,
    Fault::SameMuted,
    Fault::MutedLoop,
    Fault::MutedStale,
    Fault::UnmutedStale,
    Fault::MutedCounted,
    Fault::OtherState,
    Fault::HeldFree,
];

impl Fault {
    /// Does it take a muted rule?
    fn is_of_muted(self) -> bool {
        matches!(self, Fault::UnmutedStale | Fault::MutedCounted)
    }
}

/// A table of a random flavour with that fault, if it has room for it.
pub fn faulty(random: &mut Random, fault: Fault) -> RawTable {
    let flavour = *random.pick(&FLAVOURS);
    let program = program(random, flavour);
    let program = if fault.is_of_muted() {
        some_marked(random, program)
    } else {
        any_marked(random, program)
    };
    let labelled = Labelled::of(program);
    let faulty = match fault {
        Fault::SameRule => same_rule(random, &labelled),
        Fault::RepeatedEntry => repeated_atom(random, &labelled),
        Fault::Swapped => swapped(random, &labelled),
        Fault::SameSwapped => same_swapped(random, &labelled),
        Fault::MovedEnd => moved_end(random, &labelled),
        Fault::Loop => closed_loop(random, &labelled),
        Fault::Stale => stale(random, &labelled),
        Fault::OtherSupport => other_support(random, &labelled),
        _ => mark_faults::faulty(random, labelled.clone(), fault),
    };
    faulty.unwrap_or_else(|| RawTable::keeping(&labelled))
}

/// One of those, if there are any.
pub(super) fn any_of<T>(random: &mut Random, mut those: Vec<T>) -> Option<T> {
    if those.is_empty() {
        return None;
    }
    Some(those.swap_remove(random.below(those.len())))
}

/// The table with this page in a free slot besides, labelled as the definitions say.
pub(super) fn with_page(random: &mut Random, labelled: &Labelled, page: Page) -> Option<RawTable> {
    let mut program = labelled.program.clone();
    let free = program.iter_mut().filter(|slot| slot.is_none());
    *any_of(random, free.collect())? = Some(page);
    Some(table_of(program))
}

/// The same with an unmuted rule.
fn with_rule(random: &mut Random, labelled: &Labelled, rule: Rule) -> Option<RawTable> {
    with_page(random, labelled, Page::unmuted(rule))
}

fn same_rule(random: &mut Random, labelled: &Labelled) -> Option<RawTable> {
    let (_, rule) = any_of(random, held(&labelled.program).collect())?;
    with_rule(random, labelled, rule.clone())
}

fn repeated_atom(random: &mut Random, labelled: &Labelled) -> Option<RawTable> {
    let short = |rule: &Rule| (1..ENTRIES).contains(&rule.entries().count());
    let rules = held(&labelled.program).filter(|(_, rule)| short(rule));
    let (slot, rule) = any_of(random, rules.collect())?;
    let mut table = RawTable::keeping(labelled);
    let raw = &mut table.rules[slot as usize];
    raw.entries.copy_within(..ENTRIES - 1, 1);
    if rule.positives.is_empty() {
        raw.negatives += 1;
    } else {
        raw.positives += 1;
    }
    Some(table)
}

/// Both lists of a slot whose counts fit.
fn lists(raw: &mut RawRule) -> [&mut [u16]; 2] {
    let (positives, rest) = raw.entries.split_at_mut(raw.positives as usize);
    [positives, &mut rest[..raw.negatives as usize]]
}

/// Swaps two entries of one of the lists, if one has two.
fn swap_in<'a>(random: &mut Random, lists: impl IntoIterator<Item = &'a mut [u16]>) -> Option<()> {
    let long = lists.into_iter().filter(|list| list.len() > 1);
    let list = any_of(random, long.collect())?;
    let one = random.below(list.len());
    let other = (one + random.between(1, list.len() - 1)) % list.len();
    list.swap(one, other);
    Some(())
}

fn swapped(random: &mut Random, labelled: &Labelled) -> Option<RawTable> {
    let mut table = RawTable::keeping(labelled);
    swap_in(random, table.rules.iter_mut().flat_map(lists))?;
    Some(table)
}

fn same_swapped(random: &mut Random, labelled: &Labelled) -> Option<RawTable> {
    let long = |rule: &Rule| rule.positives.len() > 1 || rule.negatives.len() > 1;
    let rules = held(&labelled.program).filter(|(_, rule)| long(rule));
    let (slot, rule) = any_of(random, rules.collect())?;
    let mut table = with_rule(random, labelled, rule.clone())?;
    swap_in(random, lists(&mut table.rules[slot as usize]))?;
    Some(table)
}

fn moved_end(random: &mut Random, labelled: &Labelled) -> Option<RawTable> {
    let both = |rule: &Rule| !rule.positives.is_empty() && !rule.negatives.is_empty();
    let rules = held(&labelled.program).filter(|(_, rule)| both(rule));
    let (slot, rule) = any_of(random, rules.collect())?;
    let mut rule = rule.clone();
    let mut raw = RawTable::keeping(labelled).rules[slot as usize];
    if random.percent(50) {
        rule.positives.extend(rule.negatives.pop_first());
        (raw.positives, raw.negatives) = (raw.positives + 1, raw.negatives - 1);
    } else {
        rule.negatives.extend(rule.positives.pop_last());
        (raw.positives, raw.negatives) = (raw.positives - 1, raw.negatives + 1);
    }
    let mut program = labelled.program.clone();
    program[slot as usize].as_mut()?.rule = rule;
    if has_loop_through_negation(&program) {
        return None;
    }
    let mut table = table_of(program);
    table.rules[slot as usize] = raw;
    Some(table)
}

fn closed_loop(random: &mut Random, labelled: &Labelled) -> Option<RawTable> {
    let rule = closing_rule(random, labelled)?;
    with_rule(random, labelled, rule)
}

/// A rule for an in atom that negates it, or negates the head of a rule that it is an entry of.
/// The atom is in without that rule, so with it the model stays.
pub(super) fn closing_rule(random: &mut Random, labelled: &Labelled) -> Option<Rule> {
    let ins = labelled
        .occurring()
        .map(|(atom, _)| atom)
        .filter(|&atom| labelled.is_in(atom));
    let head = any_of(random, ins.collect())?;
    let follow =
        held(&labelled.program).filter(|(_, rule)| rule.entries().any(|entry| entry == head));
    let heads: Vec<u32> = follow.map(|(_, rule)| rule.head).chain([head]).collect();
    let negated = *random.pick(&heads);
    Some(Rule::of(head, &[], &[negated]))
}

fn stale(random: &mut Random, labelled: &Labelled) -> Option<RawTable> {
    let (slot, _) = any_of(random, held(&labelled.program).collect())?;
    let mut table = RawTable::keeping(labelled);
    table.rules[slot as usize] = RawRule::EMPTY;
    table.kept[slot as usize] = Kept::NOTHING;
    Some(table)
}

fn other_support(random: &mut Random, labelled: &Labelled) -> Option<RawTable> {
    let others = held(&labelled.program).filter(|&(slot, rule)| {
        spoiler(labelled, rule).is_none() && !labelled.supports(slot, rule.head)
    });
    let (slot, rule) = any_of(random, others.collect())?;
    let Label::In {
        slot: supporting, ..
    } = labelled.label(rule.head)
    else {
        return None;
    };
    let mut table = RawTable::keeping(labelled);
    let depth = std::mem::take(&mut table.kept[supporting as usize].depth);
    table.kept[slot as usize].depth = depth;
    Some(table)
}
