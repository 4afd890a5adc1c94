//! Mutings and unmutings, drawn with the pages in view whose marks they set; and rules about muted ones.

use crate::calls::Call;
use crate::generate::again::Named;
use crate::generate::calls::TOO_LARGE;
use crate::generate::faults::any_of;
use crate::labels::Labelled;
use crate::limits::ATOMS;
use crate::loops::{dependencies, walk};
use crate::random::Random;
use crate::relations::spoiler;
use crate::rules::{held, muted, unmuted, Program, Rule};

/// What a muting is drawn for.
#[derive(Clone, Copy, PartialEq, Eq, Debug)]
pub enum Flavour {
    /// Mutes the rule that supports an in atom.
    Supporting,
    /// The same, where another unmuted rule of the atom is valid: the atom may stay in.
    Relieved,
    /// The same, where an unmuted rule negates the atom: its head may come in.
    Negated,
    /// Mutes a valid rule of an atom that another one supports.
    Valid,
    /// Mutes a spoiled rule of an in atom.
    SpoiledOfIn,
    /// Mutes a rule of an out atom.
    OfOut,
    /// Mutes the only unmuted rule of an atom.
    LastOfHead,
    /// Mutes a muted rule.
    MutedAgain,
    /// Unmutes a rule that is not muted.
    UnmutedAgain,
    /// Unmutes a rule of an out atom that no entry spoils: the atom comes in.
    UnmutedLetsIn,
    /// The same, where an unmuted rule negates the atom: its head may go out.
    UnmutedNegated,
    /// Unmutes a rule of an in atom that no entry spoils: it may come to support it.
    UnmutedOfIn,
    /// Unmutes a spoiled rule of an in atom.
    UnmutedSpoiledOfIn,
    /// Unmutes a spoiled rule of an out atom.
    UnmutedSpoiledOfOut,
    /// Of a slot that holds nothing, 9.
    FreeSlot,
    /// Of a number that no slot has, 8.
    NoSlot,
}

pub const FLAVOURS: [Flavour; 16] = [
    Flavour::Supporting,
    Flavour::Relieved,
    Flavour::Negated,
    Flavour::Valid,
    Flavour::SpoiledOfIn,
    Flavour::OfOut,
    Flavour::LastOfHead,
    Flavour::MutedAgain,
    Flavour::UnmutedAgain,
    Flavour::UnmutedLetsIn,
    Flavour::UnmutedNegated,
    Flavour::UnmutedOfIn,
    Flavour::UnmutedSpoiledOfIn,
    Flavour::UnmutedSpoiledOfOut,
    Flavour::FreeSlot,
    Flavour::NoSlot,
];

/// Those that unmute a muted rule. Fewer pages have room for them, so that they are drawn more often.
const UNMUTING: [Flavour; 5] = [
    Flavour::UnmutedLetsIn,
    Flavour::UnmutedNegated,
    Flavour::UnmutedOfIn,
    Flavour::UnmutedSpoiledOfIn,
    Flavour::UnmutedSpoiledOfOut,
];

/// Numbers that mute: some start over at 0 in a narrow type.
const MUTES: [u32; 10] = [1, 1, 1, 2, 3, 256, 65_536, 1 << 31, u32::MAX - 1, u32::MAX];

/// A number that mutes.
pub fn any_mark(random: &mut Random) -> u32 {
    *random.pick(&MUTES)
}

impl Flavour {
    /// The number that sets the mark. Of a slot that holds no rule it is any.
    fn mark(self, random: &mut Random) -> u32 {
        let unmutes = match self {
            Flavour::UnmutedAgain => true,
            Flavour::FreeSlot | Flavour::NoSlot => random.percent(50),
            _ => UNMUTING.contains(&self),
        };
        if unmutes {
            0
        } else {
            any_mark(random)
        }
    }
}

/// The slots of the rules that are so.
fn slots<'a>(
    rules: impl Iterator<Item = (u32, &'a Rule)>,
    so: impl Fn(u32, &Rule) -> bool,
) -> Vec<u32> {
    let those = rules.filter(|&(slot, rule)| so(slot, rule));
    those.map(|(slot, _)| slot).collect()
}

/// Does an unmuted rule negate the atom?
fn negated(pages: &Program, atom: u32) -> bool {
    unmuted(pages).any(|(_, rule)| rule.negatives.contains(&atom))
}

/// The slots that a flavour may name which goes by labels. Where the pages have none, which only a loop through a
/// negation can cause, there are none.
fn by_labels(pages: &Program, flavour: Flavour) -> Vec<u32> {
    let Some(labelled) = Labelled::found(pages.clone()) else {
        return Vec::new();
    };
    let valid = |rule: &Rule| spoiler(&labelled, rule).is_none();
    let is_in = |rule: &Rule| labelled.is_in(rule.head);
    let supports = |slot, rule: &Rule| labelled.supports(slot, rule.head);
    let negated = |rule: &Rule| negated(pages, rule.head);
    let relieved = |slot, rule: &Rule| {
        let mut others = unmuted(pages).filter(|&(other, _)| other != slot);
        others.any(|(_, other)| other.head == rule.head && valid(other))
    };
    let those = |so: &dyn Fn(u32, &Rule) -> bool| slots(unmuted(pages), so);
    let silent = |so: &dyn Fn(&Rule) -> bool| slots(muted(pages), |_, rule| so(rule));
    match flavour {
        Flavour::Supporting => those(&supports),
        Flavour::Relieved => those(&|slot, rule| supports(slot, rule) && relieved(slot, rule)),
        Flavour::Negated => those(&|slot, rule| supports(slot, rule) && negated(rule)),
        Flavour::Valid => those(&|slot, rule| valid(rule) && !supports(slot, rule)),
        Flavour::SpoiledOfIn => those(&|_, rule| !valid(rule) && is_in(rule)),
        Flavour::OfOut => those(&|_, rule| !is_in(rule)),
        Flavour::UnmutedLetsIn => silent(&|rule| valid(rule) && !is_in(rule)),
        Flavour::UnmutedNegated => silent(&|rule| valid(rule) && !is_in(rule) && negated(rule)),
        Flavour::UnmutedOfIn => silent(&|rule| valid(rule) && is_in(rule)),
        Flavour::UnmutedSpoiledOfIn => silent(&|rule| !valid(rule) && is_in(rule)),
        _ => silent(&|rule| !valid(rule) && !is_in(rule)),
    }
}

/// The slots that the flavour may name.
fn named_by(pages: &Program, flavour: Flavour) -> Vec<u32> {
    match flavour {
        Flavour::NoSlot => TOO_LARGE.to_vec(),
        Flavour::FreeSlot => {
            let free = (0..).zip(pages).filter(|(_, page)| page.is_none());
            free.map(|(slot, _)| slot).collect()
        }
        Flavour::MutedAgain => slots(muted(pages), |_, _| true),
        Flavour::UnmutedAgain => slots(unmuted(pages), |_, _| true),
        Flavour::LastOfHead => slots(unmuted(pages), |slot, rule| {
            unmuted(pages).all(|(other, also)| also.head != rule.head || other == slot)
        }),
        _ => by_labels(pages, flavour),
    }
}

/// A muting of that flavour; `None` where the pages have no room for it.
pub fn muting(random: &mut Random, pages: &Program, flavour: Flavour) -> Option<Call> {
    let slot = any_of(random, named_by(pages, flavour))?;
    let mark = flavour.mark(random);
    Some(Call::Mute { slot, mark })
}

/// A muting of any flavour for which the pages have room.
pub fn any_muting(random: &mut Random, pages: &Program) -> Call {
    loop {
        let flavour = if random.percent(35) {
            *random.pick(&UNMUTING)
        } else {
            *random.pick(&FLAVOURS)
        };
        if let Some(drawn) = muting(random, pages, flavour) {
            return drawn;
        }
    }
}

/// A rule about a muted one: the same in any order, 5; one that closes a loop through a negation with it, 7; another
/// one of its head; or one that negates its head. `None` where no rule is muted.
pub fn about_muted(random: &mut Random, pages: &Program) -> Option<Named> {
    let (_, silent) = any_of(random, muted(pages).collect())?;
    let entry = any_of(random, silent.entries().collect());
    let other = random.below(ATOMS) as u32;
    let rule = match (random.below(5), entry) {
        (0, Some(entry)) => {
            let reached = walk(&dependencies(pages), entry).ascending().collect();
            Rule::of(any_of(random, reached)?, &[], &[silent.head])
        }
        (1, Some(entry)) => Rule::of(silent.head, &[], &[entry]),
        (2, _) => Rule::of(silent.head, &[], &[other]),
        (3, _) => Rule::of(other, &[], &[silent.head]),
        _ => silent.clone(),
    };
    Some(Named::of(&rule).shuffled(random))
}

/// The head or an entry of a muted rule.
pub fn any_muted_atom(random: &mut Random, pages: &Program) -> Option<u32> {
    let (_, rule) = any_of(random, muted(pages).collect())?;
    any_of(random, rule.entries().chain([rule.head]).collect())
}

/// Any slot that holds a rule.
pub fn any_held_slot(random: &mut Random, pages: &Program) -> Option<u32> {
    any_of(random, slots(held(pages), |_, _| true))
}
