//! Replacements, drawn with the pages in view whose rules they replace.

use crate::generate::again::Named;
use crate::generate::calls::TOO_LARGE;
use crate::generate::faults::any_of;
use crate::limits::{ATOMS, ENTRIES};
use crate::loops::{dependencies, has_loop_through_negation, walk};
use crate::random::Random;
use crate::rules::{held, holds, Page, Program, Rule};

/// What a replacement is drawn for.
#[derive(Clone, Copy, PartialEq, Eq, Debug)]
pub enum Flavour {
    /// A rule by itself, its lists as they are kept.
    Itself,
    /// A rule by itself, a list of it in another order.
    Reordered,
    /// By the rule of another slot, in any order: 5.
    HeldElsewhere,
    /// The old and the new rule together would close a loop through a negation, the new one alone does not.
    LoopWithOld,
    /// The new rule closes a loop through a negation without the old one: 7.
    LoopAnyway,
    /// The head or an entry is another, an entry goes or comes.
    Edited,
    /// On a slot that holds a rule, with a rule that is refused by this number, 1 to 4, and often by a later one too.
    Spoiled(u32),
    /// Of a slot that holds nothing, 9, with any rule.
    FreeSlot,
    /// Of a number that no slot has, 8, with any rule.
    NoSlot,
}

pub const FLAVOURS: [Flavour; 12] = [
    Flavour::Itself,
    Flavour::Reordered,
    Flavour::HeldElsewhere,
    Flavour::LoopWithOld,
    Flavour::LoopAnyway,
    Flavour::Edited,
    Flavour::Spoiled(1),
    Flavour::Spoiled(2),
    Flavour::Spoiled(3),
    Flavour::Spoiled(4),
    Flavour::FreeSlot,
    Flavour::NoSlot,
];

/// How often rules are drawn for a loop before it is given up.
const TRIES: usize = 6;

/// The slot and the rule of a replacement of that flavour; `None` where the pages have no room for it, or where none
/// was found.
pub fn replacement(random: &mut Random, pages: &Program, flavour: Flavour) -> Option<(u32, Named)> {
    let drawn = match flavour {
        Flavour::Itself => {
            let (slot, rule) = any_held(random, pages)?;
            (slot, Named::of(rule))
        }
        Flavour::Reordered => reordered(random, pages)?,
        Flavour::HeldElsewhere => {
            let (slot, old) = any_held(random, pages)?;
            let others = held(pages).filter(|(_, rule)| *rule != old);
            let (_, rule) = any_of(random, others.collect())?;
            (slot, Named::of(rule).shuffled(random))
        }
        Flavour::LoopWithOld => (0..TRIES).find_map(|_| loop_with_old(random, pages))?,
        Flavour::LoopAnyway => loop_anyway(random, pages)?,
        Flavour::Edited => {
            let (slot, rule) = any_held(random, pages)?;
            (slot, edited(random, rule).shuffled(random))
        }
        Flavour::Spoiled(number) => {
            let (slot, _) = any_held(random, pages)?;
            let named = any_named(random, pages);
            (slot, spoiled(random, named, number))
        }
        Flavour::FreeSlot => {
            let free = (0..).zip(pages).filter(|(_, page)| page.is_none());
            let (slot, _) = any_of(random, free.collect())?;
            (slot, any_rule(random, pages))
        }
        Flavour::NoSlot => (*random.pick(&TOO_LARGE), any_rule(random, pages)),
    };
    Some(drawn)
}

/// A replacement of any flavour for which the pages have room.
pub fn any_replacement(random: &mut Random, pages: &Program) -> (u32, Named) {
    loop {
        let flavour = *random.pick(&FLAVOURS);
        if let Some(drawn) = replacement(random, pages, flavour) {
            return drawn;
        }
    }
}

fn any_held<'a>(random: &mut Random, pages: &'a Program) -> Option<(u32, &'a Rule)> {
    any_of(random, held(pages).collect())
}

fn any_atom(random: &mut Random) -> u32 {
    random.below(ATOMS) as u32
}

/// A rule of the pages, its lists in any order, or a fact.
fn any_named(random: &mut Random, pages: &Program) -> Named {
    let held = any_held(random, pages).map(|(_, rule)| Named::of(rule));
    let fact = Rule::of(any_atom(random), &[], &[]);
    held.unwrap_or_else(|| Named::of(&fact)).shuffled(random)
}

/// The same, half of the time spoiled.
fn any_rule(random: &mut Random, pages: &Program) -> Named {
    let named = any_named(random, pages);
    if random.percent(50) {
        return named;
    }
    let number = random.between(1, 4) as u32;
    spoiled(random, named, number)
}

fn reordered(random: &mut Random, pages: &Program) -> Option<(u32, Named)> {
    let long = |rule: &Rule| rule.positives.len() > 1 || rule.negatives.len() > 1;
    let rules = held(pages).filter(|(_, rule)| long(rule));
    let (slot, rule) = any_of(random, rules.collect())?;
    let kept = Named::of(rule);
    let mut named = kept.clone().shuffled(random);
    if named == kept {
        named.positives.reverse();
        named.negatives.reverse();
    }
    Some((slot, named))
}

/// Whether the rule and the program together have a loop through a negation.
fn loops(program: &Program, rule: &Rule) -> bool {
    let mut program = program.clone();
    program.push(Some(Page::unmuted(rule.clone())));
    has_loop_through_negation(&program)
}

fn without(pages: &Program, slot: u32) -> Program {
    let mut rest = pages.clone();
    rest[slot as usize] = None;
    rest
}

/// A rule of that head with at most two positive entries of the old one.
fn beside(random: &mut Random, head: u32, old: &Rule) -> Rule {
    let entries: Vec<u32> = old.positives.iter().copied().collect();
    let count = random.below(3);
    Rule::of(head, &random.sample(&entries, count), &[])
}

/// The old rule's head depends on an entry, and so on all that the entry depends on. A new rule for one of those atoms
/// names the old head: a loop, unless the old rule goes. The last question is whether it has gone then.
fn loop_with_old(random: &mut Random, pages: &Program) -> Option<(u32, Named)> {
    let rules = held(pages).filter(|(_, rule)| rule.entries().next().is_some());
    let (slot, old) = any_of(random, rules.collect())?;
    let entry = any_of(random, old.entries().collect())?;
    let reached = walk(&dependencies(pages), entry).ascending().collect();
    let head = any_of(random, reached)?;
    let mut rule = beside(random, head, old);
    if old.negatives.contains(&entry) && random.percent(50) {
        rule.positives.insert(old.head);
    } else {
        rule.negatives.insert(old.head);
    }
    let rest = without(pages, slot);
    let passes = !holds(&rest, &rule) && !loops(&rest, &rule);
    passes.then(|| (slot, Named::of(&rule)))
}

/// A rule that negates what depends on its head, by the rules of the other slots; where there is none, its own head.
fn loop_anyway(random: &mut Random, pages: &Program) -> Option<(u32, Named)> {
    let (slot, old) = any_held(random, pages)?;
    let rest = without(pages, slot);
    let negated = any_held(random, &rest).map_or(old.head, |(_, rule)| rule.head);
    let reached = walk(&dependencies(&rest), negated).ascending().collect();
    let head = any_of(random, reached)?;
    let mut rule = beside(random, head, old);
    rule.negatives.insert(negated);
    Some((slot, Named::of(&rule)))
}

/// The rule with another head, an entry less, an entry more or an entry changed.
fn edited(random: &mut Random, rule: &Rule) -> Named {
    let mut rule = rule.clone();
    let atom = any_atom(random);
    if random.percent(20) {
        rule.head = atom;
        return Named::of(&rule);
    }
    let full = rule.entries().count() == ENTRIES;
    let list = if random.percent(50) || rule.negatives.is_empty() {
        &mut rule.positives
    } else {
        &mut rule.negatives
    };
    if full || random.percent(60) {
        list.pop_last();
    }
    if list.is_empty() || !full && random.percent(60) {
        list.insert(atom);
    }
    Named::of(&rule)
}

/// Spoiled so that the first question answered no is this one of 1 to 4; the later ones may be too. They come first, so
/// that what this one needs is not undone.
fn spoiled(random: &mut Random, named: Named, number: u32) -> Named {
    let later = (number + 1..=4).rev().filter(|_| random.percent(40));
    let numbers: Vec<u32> = later.chain([number]).collect();
    let mut named = named;
    for number in numbers {
        spoil(random, &mut named, number);
    }
    named
}

/// Leaves room for so many entries more.
fn make_room(named: &mut Named, more: usize) {
    while named.positives.len() + named.negatives.len() + more > ENTRIES {
        if named.positives.pop().is_none() {
            named.negatives.pop();
        }
    }
}

fn spoil(random: &mut Random, named: &mut Named, number: u32) {
    if number == 1 {
        named.head = *random.pick(&TOO_LARGE);
        return;
    }
    if number > 2 {
        make_room(named, number as usize - 2);
    }
    let missing = (ENTRIES + 1).saturating_sub(named.positives.len() + named.negatives.len());
    let atom = any_atom(random);
    let list = if random.percent(50) {
        &mut named.positives
    } else {
        &mut named.negatives
    };
    match number {
        2 => list.extend((0..missing as u32).map(|step| (atom + step) % ATOMS as u32)),
        3 => list.push(*random.pick(&TOO_LARGE)),
        _ => {
            if list.is_empty() {
                list.push(atom);
            }
            list.push(list[0]);
        }
    }
    random.shuffle(list);
}
