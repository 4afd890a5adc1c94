//! Rules as calls name them, and additions that come again: the same rule in another order, and what is nearly the
//! same.

use crate::calls::Call;
use crate::questions::rule_from;
use crate::random::Random;
use crate::rules::{Page, Program, Rule};
use crate::table::{RawRule, RawTable, HELD, MUTED};

/// A head and two lists, as a call names them.
#[derive(Clone, PartialEq, Eq, Debug)]
pub struct Named {
    pub head: u32,
    pub positives: Vec<u32>,
    pub negatives: Vec<u32>,
}

impl Named {
    /// The rule, its lists as they are kept.
    pub fn of(rule: &Rule) -> Named {
        Named {
            head: rule.head,
            positives: rule.positives.iter().copied().collect(),
            negatives: rule.negatives.iter().copied().collect(),
        }
    }

    /// The same with its lists in any order.
    pub fn shuffled(mut self, random: &mut Random) -> Named {
        random.shuffle(&mut self.positives);
        random.shuffle(&mut self.negatives);
        self
    }

    pub fn addition(self) -> Call {
        Call::Add {
            head: self.head,
            positives: self.positives,
            negatives: self.negatives,
        }
    }

    /// The replacement of what the slot holds.
    pub fn replacing(self, slot: u32) -> Call {
        Call::Replace {
            slot,
            head: self.head,
            positives: self.positives,
            negatives: self.negatives,
        }
    }
}

/// What was named so far.
#[derive(Clone, Default, Debug)]
pub struct Earlier {
    named: Vec<Named>,
}

impl Earlier {
    /// The rules that the slots of a table hold, muted or not.
    pub fn in_table(table: &RawTable) -> Earlier {
        let rules = table.rules.iter().filter(|raw| holds_a_rule(raw));
        Earlier {
            named: rules.map(held_in).collect(),
        }
    }

    pub fn note(&mut self, named: Named) {
        self.named.push(named);
    }

    /// One of those named so far, if there are any, its lists shuffled. One time in ten each, the
    /// lists are exchanged, an entry is moved to the other list, or one is doubled.
    pub fn again(&self, random: &mut Random) -> Option<Named> {
        if self.named.is_empty() {
            return None;
        }
        let mut named = random.pick(&self.named).clone().shuffled(random);
        match random.below(10) {
            0 => std::mem::swap(&mut named.positives, &mut named.negatives),
            1 => named.negatives.extend(named.positives.pop()),
            2 => named.positives.extend(named.positives.first().copied()),
            _ => {}
        }
        Some(named)
    }
}

fn holds_a_rule(raw: &RawRule) -> bool {
    [HELD, MUTED].contains(&raw.state)
}

/// What a slot of any table holds: as many entries of each list as there are.
fn held_in(raw: &RawRule) -> Named {
    let mut entries = raw.entries.iter().map(|&entry| entry.into());
    Named {
        head: raw.head.into(),
        positives: entries.by_ref().take(raw.positives.into()).collect(),
        negatives: entries.take(raw.negatives.into()).collect(),
    }
}

/// What the slots of any table hold, as far as it passes questions 1 to 4.
pub fn pages_of(table: &RawTable) -> Program {
    let page = |raw: &RawRule| {
        let named = held_in(raw);
        let rule = rule_from(named.head, &named.positives, &named.negatives).ok()?;
        let muted = raw.state == MUTED;
        holds_a_rule(raw).then_some(Page { rule, muted })
    };
    table.rules.iter().map(page).collect()
}
