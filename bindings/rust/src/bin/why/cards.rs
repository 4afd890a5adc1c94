//! A tree as cards: what each says, how it looks, and what hangs below it.

use crate::measure::seen;
use crate::sheet::Names;
use crate::shown::shown;
use std::collections::BTreeMap;
use yeqontur::{Because, Label, Rule, Side, Stop, Stopped, Table, Why};

/// How a card looks.
#[derive(Clone, Copy, PartialEq, Eq, Debug)]
pub enum Look {
    In,
    Out,
    Rule,
    Muted,
    /// It stands for cards that are left out.
    LeftOut,
}

/// How a card hangs below another.
#[derive(Clone, Copy, PartialEq, Eq, Debug)]
pub enum Link {
    /// An in atom rests on this atom.
    RestsOn,
    /// An out atom has this rule.
    HasRule,
    /// An out atom has this rule, which is muted.
    HasMuted,
    /// The rule needs this atom, which is out.
    Needs,
    /// The rule is blocked by this atom, which is in.
    BlockedBy,
}

#[derive(Clone, PartialEq, Eq, Debug)]
pub struct Line {
    pub text: String,
    pub bold: bool,
    /// For the entry that stops the rule: how.
    pub stops: Option<Link>,
    /// It goes on with the line above it.
    pub goes_on: bool,
}

/// What a card is about: an atom, by what can be asked for; the rule in a slot; or cards that are left out, how many.
#[derive(Clone, PartialEq, Eq, Debug)]
pub enum Of {
    Atom(String),
    Rule(u32),
    LeftOut { atoms: usize, rules: usize },
}

#[derive(Clone, PartialEq, Eq, Debug)]
pub struct Card {
    pub look: Look,
    pub of: Of,
    pub lines: Vec<Line>,
    /// The card that it hangs from, which stands before it in the list, and how.
    pub from: Option<(usize, Link)>,
    pub row: usize,
    /// The card that the branches of its atom hang from, if that is another one.
    pub told: Option<usize>,
}

/// The whole: a headline, the cards in reading order, and the depth of the first, 0 if it is not in.
pub struct Drawing {
    pub headline: String,
    pub cards: Vec<Card>,
    pub depth: usize,
}

struct Words<'a> {
    table: &'a Table,
    names: &'a Names,
    cards: Vec<Card>,
    /// The card that the branches of an atom hang from.
    told: BTreeMap<u32, usize>,
}

pub const ABOVE: &str = "shown above: it waits for itself";
pub const EARLIER: &str = "its branches are shown already";

pub fn line(text: String) -> Line {
    Line {
        text,
        bold: false,
        stops: None,
        goes_on: false,
    }
}

pub fn bold(text: String) -> Line {
    Line {
        bold: true,
        ..line(text)
    }
}

fn state(label: Label) -> &'static str {
    match label {
        Label::Absent => "absent",
        Label::Out => "out",
        Label::In { .. } => "in",
    }
}

fn depth(label: Label) -> usize {
    match label {
        Label::In { depth, .. } => depth as usize,
        _ => 0,
    }
}

/// How an entry of this list stops a rule.
fn stops_by(side: Side) -> Link {
    match side {
        Side::Positive => Link::Needs,
        Side::Negative => Link::BlockedBy,
    }
}

fn look(label: Label) -> Look {
    if label.is_in() {
        Look::In
    } else {
        Look::Out
    }
}

impl Drawing {
    pub fn new(why: &Why, table: &Table, names: &Names) -> Drawing {
        let mut words = Words {
            table,
            names,
            cards: Vec::new(),
            told: BTreeMap::new(),
        };
        words.atom(why, None, 0);
        Drawing {
            headline: format!("Why {} is {}", words.name(why.atom), state(why.label)),
            cards: words.cards,
            depth: depth(why.label),
        }
    }
}

impl Words<'_> {
    fn name(&self, atom: u32) -> String {
        let name = self.names.get(&atom);
        let name = name.filter(|name| name.chars().any(seen));
        name.map_or_else(|| format!("atom {atom}"), |name| shown(name))
    }

    /// The card of an atom, and those below it.
    fn atom(&mut self, why: &Why, from: Option<(usize, Link)>, row: usize) {
        let place = self.cards.len();
        let mut lines = vec![bold(self.name(why.atom))];
        lines.extend(self.says(why).into_iter().map(line));
        let cut = matches!(why.because, Because::Above | Because::Earlier);
        let told = self.told.get(&why.atom).copied().filter(|_| cut);
        self.cards.push(Card {
            look: look(why.label),
            of: Of::Atom(self.asked(why.atom)),
            lines,
            from,
            row,
            told,
        });
        if !cut {
            self.told.insert(why.atom, place);
        }
        self.below(why, place, row);
    }

    /// By its number an atom of a sheet can be asked for, whatever its name is; a file of a checklist has its number in
    /// the name.
    fn asked(&self, atom: u32) -> String {
        let (name, number) = (self.name(atom), format!("atom {atom}"));
        if name == number {
            return number;
        }
        format!("{number}, {name}")
    }

    /// The cards below an atom's card.
    fn below(&mut self, why: &Why, place: usize, row: usize) {
        match &why.because {
            Because::Supported { from, .. } => from.iter().for_each(|lower| {
                let rows = depth(why.label) - depth(lower.label);
                self.atom(lower, Some((place, Link::RestsOn)), row + rows);
            }),
            Because::Stopped(rules) => rules
                .iter()
                .for_each(|stopped| self.stopped(stopped, place, row + 1)),
            _ => {}
        }
    }

    /// What an atom's card says below its name.
    fn says(&self, why: &Why) -> Vec<String> {
        let mut lines = vec![match why.label {
            Label::In { depth, slot } => format!("in, depth {depth}, by slot {slot}"),
            label => state(label).to_string(),
        }];
        match &why.because {
            Because::Absent => lines.push("stands in no rule".to_string()),
            Because::Supported { rule, from } => {
                if from.is_empty() && rule.negatives.is_empty() {
                    lines.push("a fact".to_string());
                }
                let negatives = rule.negatives.iter();
                lines.extend(negatives.map(|&atom| self.entry("not ", atom)));
            }
            Because::Stopped(rules) if rules.is_empty() => {
                lines.push("no rule gives it".to_string());
            }
            Because::Stopped(_) => {}
            Because::Above => lines.push(ABOVE.to_string()),
            Because::Earlier => lines.push(EARLIER.to_string()),
            other => panic!("not drawn yet: {other:?}"),
        }
        lines
    }

    /// The card of a rule of an out atom, and those below it.
    fn stopped(&mut self, Stopped { rule, stop, .. }: &Stopped, head: usize, row: usize) {
        let place = self.cards.len();
        let (look, link, lines) = match stop {
            Stop::Spoiled {
                side, place: at, ..
            } => (Look::Rule, Link::HasRule, self.spoiled(rule, *side, *at)),
            Stop::Muted => (Look::Muted, Link::HasMuted, self.muted(rule)),
            other => panic!("not drawn yet: {other}"),
        };
        self.cards.push(Card {
            look,
            of: Of::Rule(rule.slot),
            lines,
            from: Some((head, link)),
            row,
            told: None,
        });
        if let Stop::Spoiled { side, by, .. } = stop {
            self.atom(by, Some((place, stops_by(*side))), row + 1);
        }
    }

    /// A spoiled rule: its entries, the one that stops it marked.
    fn spoiled(&self, rule: &Rule, side: Side, place: u32) -> Vec<Line> {
        let mut lines = vec![line(format!("the rule in slot {} asks for", rule.slot))];
        lines.extend(self.entries(rule, Some((side, place))));
        lines
    }

    /// A muted rule: its entries, none of them marked, since it is not they that stop it.
    fn muted(&self, rule: &Rule) -> Vec<Line> {
        let entries = self.entries(rule, None);
        let asks = if entries.is_empty() {
            "a fact"
        } else {
            "it asks for"
        };
        let mut lines = vec![
            bold(format!("the rule in slot {} is muted", rule.slot)),
            line(asks.to_string()),
        ];
        lines.extend(entries);
        lines
    }

    /// The entries of a rule with their labels. The one that stops it, by list and place, is marked.
    fn entries(&self, rule: &Rule, stopper: Option<(Side, u32)>) -> Vec<Line> {
        let mut lines = Vec::new();
        for (not, side) in [("", Side::Positive), ("not ", Side::Negative)] {
            lines.extend((0..).zip(rule.list(side)).map(|(place, &atom)| {
                let stops = stopper == Some((side, place));
                Line {
                    bold: stops,
                    stops: stops.then_some(stops_by(side)),
                    ..line(self.entry(not, atom))
                }
            }));
        }
        lines
    }

    /// An entry and its label, which is never refused: the atoms of a rule are below 256.
    fn entry(&self, not: &str, atom: u32) -> String {
        let state = self.table.label(atom).map_or("", state);
        format!("{not}{} ({state})", self.name(atom))
    }
}
