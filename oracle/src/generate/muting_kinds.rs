//! What mutings came to, and what other calls met of muted rules, counted, so that a run that never meets one of the
//! kinds is seen.

use crate::book::Book;
use crate::calls::Call;
use crate::checklist::Checklist;
use crate::file;
use crate::generate::marks::{all_unmuted, without_muted};
use crate::labels::{Label, Labelled};
use crate::loops::has_loop_through_negation;
use crate::relations::{reason, repercussions, spoiler};
use crate::rules::{muted, occurring, unmuted, Page, Program, Rule};
use std::collections::BTreeMap;
use std::fmt;

/// What came of setting a mark: the first five say what the rule is to its head where it is not muted, the others what
/// moved. Moves may come together.
#[derive(Clone, Copy, PartialEq, Eq, PartialOrd, Ord, Debug)]
pub enum How {
    /// The mark was set already.
    Again,
    Supporting,
    /// Valid, and another rule supports its head.
    Valid,
    SpoiledOfIn,
    SpoiledOfOut,
    /// Some atom came in.
    LetsIn,
    /// Some atom went out.
    LetsOut,
    /// Some atom stayed in with another depth or supporting slot.
    MovesSupport,
    /// All rules of the head are muted after the muting, or before the unmuting.
    WholeHead,
}

pub const HOWS: [How; 9] = [
    How::Again,
    How::Supporting,
    How::Valid,
    How::SpoiledOfIn,
    How::SpoiledOfOut,
    How::LetsIn,
    How::LetsOut,
    How::MovesSupport,
    How::WholeHead,
];

/// What a call that sets no mark met of muted rules.
#[derive(Clone, Copy, PartialEq, Eq, PartialOrd, Ord, Debug)]
pub enum Met {
    /// 5: the same rule is muted.
    Same,
    /// 7: without the muted rules there would be no loop.
    Loop,
    /// A muted rule was removed.
    Removed,
    /// A muted rule was replaced, by itself or by another.
    Replaced,
    /// A rule that nothing spoils was told as muted.
    ToldValid,
    /// A rule that an entry spoils was told as muted.
    ToldSpoiled,
    /// The label of an atom that occurs in muted rules alone.
    Label,
    /// An atom that occurs in muted rules alone is among the labels.
    Labels,
    /// The rule of a slot that is muted.
    Rule,
    /// A muted rule is among the justifications.
    Justification,
    /// The atom is an entry of a muted rule.
    Consequence,
    /// The atom spoils a muted rule whose head would be one repercussion more.
    Repercussion,
    /// With no rule muted the reason would be another.
    Reason,
    Saved,
    Loaded,
    /// 15: the rules would be a checklist's if none were muted.
    Checklist,
}

/// What calls that change a table can meet.
pub const BY_CHANGES: [Met; 6] = [
    Met::Same,
    Met::Loop,
    Met::Removed,
    Met::Replaced,
    Met::Loaded,
    Met::Checklist,
];

/// What the calls that know of no checklist can meet.
pub const BY_RULES: [Met; 15] = [
    Met::Same,
    Met::Loop,
    Met::Removed,
    Met::Replaced,
    Met::ToldValid,
    Met::ToldSpoiled,
    Met::Label,
    Met::Labels,
    Met::Rule,
    Met::Justification,
    Met::Consequence,
    Met::Repercussion,
    Met::Reason,
    Met::Saved,
    Met::Loaded,
];

#[derive(Clone, Copy, PartialEq, Eq, PartialOrd, Ord, Debug)]
pub enum Kind {
    /// A muting or an unmuting was refused.
    Refused(u32),
    Muting(How),
    Unmuting(How),
    Met(Met),
}

/// What a muting in a list of calls that starts from the empty table can be refused by.
pub const REFUSALS: [u32; 2] = [8, 9];

impl Kind {
    /// What a call on these pages came to, by the number of its refusal, or 0. The pages of an accepted call have no
    /// loop through a negation.
    pub fn of(pages: &Program, call: &Call, refused: u32) -> Vec<Kind> {
        match call {
            Call::Mute { .. } if refused > 0 => vec![Kind::Refused(refused)],
            Call::Mute { slot, mark } => {
                let kind = if *mark == 0 {
                    Kind::Unmuting
                } else {
                    Kind::Muting
                };
                marked(pages, *slot, *mark).into_iter().map(kind).collect()
            }
            _ => Met::of(pages, call, refused)
                .map(Kind::Met)
                .into_iter()
                .collect(),
        }
    }
}

/// What came of an accepted muting or unmuting.
fn marked(pages: &Program, slot: u32, mark: u32) -> Vec<How> {
    let mut book = Book::holding(pages.clone());
    book.mute(slot, mark).expect("a held rule");
    if book.pages() == pages {
        return vec![How::Again];
    }
    let before = Labelled::of(pages.clone());
    let after = Labelled::of(book.pages().clone());
    let (speaks, silent) = if mark == 0 {
        (&after, &before)
    } else {
        (&before, &after)
    };
    let (_, rule) = muted(&silent.program)
        .find(|(other, _)| *other == slot)
        .expect("a muted rule");
    let mut hows = vec![part(speaks, slot, rule)];
    hows.extend(moves(&before, &after));
    if unmuted(&silent.program).all(|(_, other)| other.head != rule.head) {
        hows.push(How::WholeHead);
    }
    hows
}

/// What an unmuted rule is to its head.
fn part(labelled: &Labelled, slot: u32, rule: &Rule) -> How {
    let valid = spoiler(labelled, rule).is_none();
    match (valid, labelled.is_in(rule.head)) {
        (true, _) if labelled.supports(slot, rule.head) => How::Supporting,
        (true, _) => How::Valid,
        (false, true) => How::SpoiledOfIn,
        (false, false) => How::SpoiledOfOut,
    }
}

/// How labels moved, each way once.
fn moves(before: &Labelled, after: &Labelled) -> Vec<How> {
    let is_in = |label: &Label| matches!(label, Label::In { .. });
    let both = || before.labels.iter().zip(&after.labels);
    let ways = [
        (
            How::LetsIn,
            both().any(|(old, new)| !is_in(old) && is_in(new)),
        ),
        (
            How::LetsOut,
            both().any(|(old, new)| is_in(old) && !is_in(new)),
        ),
        (
            How::MovesSupport,
            both().any(|(old, new)| is_in(old) && is_in(new) && old != new),
        ),
    ];
    let came = ways.into_iter().filter(|(_, came)| *came);
    came.map(|(how, _)| how).collect()
}

impl Met {
    /// What a call that sets no mark met of the muted rules of these pages, if anything.
    fn of(pages: &Program, call: &Call, refused: u32) -> Option<Met> {
        match (call, refused) {
            (Call::Add { .. } | Call::Replace { .. }, 5 | 7) => Met::of_refused(pages, call),
            (_, 15) => Met::of_checklist(pages, call),
            (Call::Load { bytes }, 0) => {
                let loaded = file::read(bytes).ok()?;
                has_muted(&loaded).then_some(Met::Loaded)
            }
            (_, 0) => Met::of_accepted(pages, call),
            _ => None,
        }
    }

    /// An addition or a replacement that is refused by 5 or 7, as it is judged: without the old rule.
    fn of_refused(pages: &Program, call: &Call) -> Option<Met> {
        let (new, slot) = match call {
            Call::Add {
                head,
                positives,
                negatives,
            } => (Rule::of(*head, positives, negatives), None),
            Call::Replace {
                slot,
                head,
                positives,
                negatives,
            } => (Rule::of(*head, positives, negatives), Some(*slot)),
            _ => return None,
        };
        let mut others = pages.clone();
        slot.map(|slot| others[slot as usize].take());
        if let Some(same) = others.iter().flatten().find(|page| page.rule == new) {
            return same.muted.then_some(Met::Same);
        }
        let mut speaking = without_muted(&others);
        speaking.push(Some(Page::unmuted(new)));
        (!has_loop_through_negation(&speaking)).then_some(Met::Loop)
    }

    /// A call that meets 15 on a sound table can only be one on a checklist.
    fn of_checklist(pages: &Program, call: &Call) -> Option<Met> {
        let on_checklist = matches!(
            call,
            Call::FileSent { .. }
                | Call::FileSkipped { .. }
                | Call::SkipWithdrawn { .. }
                | Call::Missing
                | Call::Complete
        );
        let would_be = || Checklist::of(&all_unmuted(pages)).is_some();
        (on_checklist && has_muted(pages) && would_be()).then_some(Met::Checklist)
    }

    /// An accepted call on pages that have no loop through a negation.
    fn of_accepted(pages: &Program, call: &Call) -> Option<Met> {
        let silent = |slot: &u32| muted(pages).find(|(other, _)| other == slot);
        let any = |so: &dyn Fn(&Rule) -> bool| muted(pages).any(|(_, rule)| so(rule));
        match call {
            Call::Remove { slot } => silent(slot).map(|_| Met::Removed),
            Call::Replace { slot, .. } => silent(slot).map(|_| Met::Replaced),
            Call::Spoiler { slot } => silent(slot).map(|(_, rule)| told(pages, rule)),
            Call::Label { atom } => silent_alone(pages, *atom).then_some(Met::Label),
            Call::Labels => any_silent_alone(pages).then_some(Met::Labels),
            Call::Rule { slot } => silent(slot).map(|_| Met::Rule),
            Call::Justifications { atom } => {
                any(&|rule| rule.head == *atom).then_some(Met::Justification)
            }
            Call::Consequences { atom } => {
                any(&|rule| rule.entries().any(|entry| entry == *atom)).then_some(Met::Consequence)
            }
            Call::Repercussions { atom } => spoils_muted(pages, *atom).then_some(Met::Repercussion),
            Call::Reason { atom } => moves_reason(pages, *atom).then_some(Met::Reason),
            Call::Save => has_muted(pages).then_some(Met::Saved),
            _ => None,
        }
    }
}

fn has_muted(pages: &Program) -> bool {
    muted(pages).next().is_some()
}

/// What a rule that is told as muted would be.
fn told(pages: &Program, rule: &Rule) -> Met {
    match spoiler(&Labelled::of(pages.clone()), rule) {
        None => Met::ToldValid,
        Some(_) => Met::ToldSpoiled,
    }
}

/// Does the atom occur, and in muted rules alone?
fn silent_alone(pages: &Program, atom: u32) -> bool {
    occurring(pages).contains(atom) && !occurring(&without_muted(pages)).contains(atom)
}

/// Is there such an atom?
fn any_silent_alone(pages: &Program) -> bool {
    occurring(pages) != occurring(&without_muted(pages))
}

/// Does the atom spoil a muted rule whose head is out and not among its repercussions?
fn spoils_muted(pages: &Program, atom: u32) -> bool {
    let labelled = Labelled::of(pages.clone());
    let told = repercussions(&labelled, atom);
    let more = |rule: &Rule| !labelled.is_in(rule.head) && !told.contains(&rule.head);
    let spoils = |rule: &Rule| spoiler(&labelled, rule).is_some_and(|by| by.atom == atom);
    muted(pages).any(|(_, rule)| more(rule) && spoils(rule))
}

/// Would the atom have another reason with no rule muted?
fn moves_reason(pages: &Program, atom: u32) -> bool {
    let told = |pages| reason(&Labelled::of(pages), atom);
    has_muted(pages) && told(pages.clone()) != told(all_unmuted(pages))
}

/// How often each kind came up.
#[derive(Clone, Default, Debug)]
pub struct Seen {
    counts: BTreeMap<Kind, usize>,
}

impl Seen {
    /// Counts a call on these pages, with the number of its refusal, or 0.
    pub fn note(&mut self, pages: &Program, call: &Call, refused: u32) {
        for kind in Kind::of(pages, call, refused) {
            *self.counts.entry(kind).or_default() += 1;
        }
    }

    pub fn times(&self, kind: Kind) -> usize {
        self.counts.get(&kind).copied().unwrap_or(0)
    }

    /// Makes a call that changes a table on the book, and counts it.
    pub fn follow(&mut self, book: &mut Book, call: &Call) {
        let before = book.pages().clone();
        let answer = book.make(call).expect("a call that changes a table");
        self.note(&before, call, answer.err().unwrap_or(0));
    }

    /// Did muting and unmuting come so often to each of their ends, was it refused so often by each of these numbers,
    /// and did other calls so often meet each of these?
    pub fn is_enough(&self, refusals: &[u32], mets: &[Met], often: usize) -> bool {
        let hows = HOWS.iter().copied();
        let marked = hows.flat_map(|how| [Kind::Muting(how), Kind::Unmuting(how)]);
        let refused = refusals.iter().copied().map(Kind::Refused);
        let met = mets.iter().copied().map(Kind::Met);
        let mut kinds = marked.chain(refused).chain(met);
        kinds.all(|kind| self.times(kind) >= often)
    }
}

impl fmt::Display for Seen {
    fn fmt(&self, out: &mut fmt::Formatter<'_>) -> fmt::Result {
        let shown = self.counts.iter().map(|(kind, n)| format!("{kind:?}: {n}"));
        write!(out, "mutings: {}", shown.collect::<Vec<_>>().join(", "))
    }
}
