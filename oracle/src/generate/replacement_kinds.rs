//! What replacements came to, counted, so that a run that never meets one of the kinds is seen.

use crate::book::Book;
use crate::calls::Call;
use crate::command::{read_line, Line};
use crate::loops::has_loop_through_negation;
use crate::rules::{Page, Program, Rule};
use crate::sheet::lines;
use std::collections::BTreeMap;
use std::fmt;

/// What came of a replacement, told from the pages before it and its answer.
#[derive(Clone, Copy, PartialEq, Eq, PartialOrd, Ord, Debug)]
pub enum Kind {
    Refused(u32),
    /// A rule was replaced by itself, its lists as they are kept.
    Itself,
    /// A rule was replaced by itself, its lists in another order.
    Reordered,
    /// With the old rule beside it, the new one would have closed a loop through a negation.
    LoopWithOld,
    /// Any other accepted replacement.
    Other,
}

/// What an accepted replacement can come to.
pub const ACCEPTED: [Kind; 4] = [
    Kind::Itself,
    Kind::Reordered,
    Kind::LoopWithOld,
    Kind::Other,
];

/// What a replacement in a list of calls that starts from the empty table can be refused by.
pub const REFUSALS: [u32; 8] = [8, 9, 1, 2, 3, 4, 5, 7];

impl fmt::Display for Kind {
    fn fmt(&self, out: &mut fmt::Formatter<'_>) -> fmt::Result {
        match self {
            Kind::Refused(number) => write!(out, "refused {number}"),
            Kind::Itself => write!(out, "by itself"),
            Kind::Reordered => write!(out, "by itself in another order"),
            Kind::LoopWithOld => write!(out, "a loop only with the old rule"),
            Kind::Other => write!(out, "any other"),
        }
    }
}

impl Kind {
    /// What a replacement on these pages is, by the number of its refusal, or 0; `None` for other calls.
    pub fn of(pages: &Program, call: &Call, refused: u32) -> Option<Kind> {
        match call {
            Call::Replace { .. } if refused > 0 => Some(Kind::Refused(refused)),
            Call::Replace {
                slot,
                head,
                positives,
                negatives,
            } => {
                let new = Rule::of(*head, positives, negatives);
                Some(accepted(pages, *slot, &new, [positives, negatives]))
            }
            _ => None,
        }
    }
}

/// What an accepted replacement came to.
fn accepted(pages: &Program, slot: u32, new: &Rule, lists: [&[u32]; 2]) -> Kind {
    let old = pages[slot as usize].as_ref();
    if old.is_some_and(|page| page.rule == *new) {
        let kept = new.positives.iter().eq(lists[0]) && new.negatives.iter().eq(lists[1]);
        return if kept { Kind::Itself } else { Kind::Reordered };
    }
    let mut both = pages.clone();
    both.push(Some(Page::unmuted(new.clone())));
    if has_loop_through_negation(&both) {
        Kind::LoopWithOld
    } else {
        Kind::Other
    }
}

type Counts = BTreeMap<Kind, usize>;

/// How often replacements came to each kind.
#[derive(Clone, Default, Debug)]
pub struct Seen {
    all: Counts,
    /// Those on a table whose slots all hold rules.
    full: Counts,
    /// Accepted ones with a free slot below theirs, which an addition would have taken.
    above_free: usize,
}

impl Seen {
    /// Counts a replacement on these pages, with the number of its refusal, or 0; other calls are not counted.
    pub fn note(&mut self, pages: &Program, call: &Call, refused: u32) {
        let Some(kind) = Kind::of(pages, call, refused) else {
            return;
        };
        if let (Call::Replace { slot, .. }, 0) = (call, refused) {
            self.above_free += usize::from(pages[..*slot as usize].contains(&None));
        }
        *self.all.entry(kind).or_default() += 1;
        if !pages.contains(&None) {
            *self.full.entry(kind).or_default() += 1;
        }
    }

    /// How often a replacement came to that.
    pub fn times(&self, kind: Kind) -> usize {
        self.all.get(&kind).copied().unwrap_or(0)
    }

    /// Makes a call that changes a table on the book, and counts it if it is a replacement.
    pub fn follow(&mut self, book: &mut Book, call: &Call) {
        let before = book.pages().clone();
        let answer = book.make(call).expect("a call that changes a table");
        self.note(&before, call, answer.err().unwrap_or(0));
    }

    /// Counts the replacements of a sheet, also the lines that only begin like one: those that are too long, and those
    /// without the form.
    pub fn note_sheet(&mut self, input: &[u8]) {
        let mut book = Book::empty();
        for line in lines(input) {
            let refused = match read_line(line) {
                Line::Command(command) => {
                    let change = command.change();
                    change.iter().for_each(|call| self.follow(&mut book, call));
                    continue;
                }
                Line::NotACommand => 13,
                Line::LineTooLong => 14,
                Line::Blank => continue,
            };
            if line.trim_ascii_start().starts_with(b"P") {
                *self.all.entry(Kind::Refused(refused)).or_default() += 1;
            }
        }
    }

    /// Was an accepted replacement of each kind met so often, and a refused one by each of these numbers? On a full
    /// table, where no slot is free and so 9 is not met, each call on a sound table must have come at least once.
    pub fn is_enough(&self, refusals: &[u32], often: usize) -> bool {
        let refused = refusals.iter().map(|&number| Kind::Refused(number));
        let mut kinds = refused.chain(ACCEPTED);
        let not_on_full = [9, 13, 14, 15].map(Kind::Refused);
        self.above_free >= often
            && kinds.all(|kind| {
                let on_full = not_on_full.contains(&kind) || self.full.contains_key(&kind);
                self.times(kind) >= often && on_full
            })
    }
}

/// Each kind with its count.
fn listed(counts: &Counts) -> String {
    let shown = counts
        .iter()
        .map(|(kind, count)| format!("{kind}: {count}"));
    shown.collect::<Vec<_>>().join(", ")
}

impl fmt::Display for Seen {
    fn fmt(&self, out: &mut fmt::Formatter<'_>) -> fmt::Result {
        writeln!(out, "replacements: {}", listed(&self.all))?;
        writeln!(out, "on a full table: {}", listed(&self.full))?;
        write!(out, "with a free slot below: {}", self.above_free)
    }
}
