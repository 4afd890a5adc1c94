//! The admissible model of a program of any size, closed in on from both sides.
//!
//! Let D(S) be the atoms derivable by the unmuted rules that no atom of S stops. A larger S stops
//! more rules, so D turns the order round: if S lies within the model then D(S) holds all of
//! it, and if S holds all of the model then D(S) lies within it. Starting from the empty set,
//! which lies within, the two sides move towards each other. Where they meet, S = D(S): the
//! atoms of S have an order and S is closed, so S is admissible, and any admissible model
//! lies between the two sides, so there is no other. Without a loop through a negation they
//! always meet.

use crate::atoms::AtomSet;
use crate::limits::ATOMS;
use crate::rules::{unmuted, Page, Rule};

/// The unmuted rules, with the places where each atom is waited for.
struct Derivations<'a> {
    rules: Vec<&'a Rule>,
    waiting: Vec<Vec<usize>>,
}

impl<'a> Derivations<'a> {
    fn of(program: &'a [Option<Page>]) -> Derivations<'a> {
        let rules: Vec<&Rule> = unmuted(program).map(|(_, rule)| rule).collect();
        let mut waiting = vec![Vec::new(); ATOMS];
        for (place, rule) in rules.iter().enumerate() {
            for &atom in &rule.positives {
                waiting[atom as usize].push(place);
            }
        }
        Derivations { rules, waiting }
    }

    /// D(S): each newly derived atom is handed to the rules that wait for it, and a rule
    /// that waits for nothing more, and that S doesn't stop, derives its head.
    fn unstopped_by(&self, stopping: &AtomSet) -> AtomSet {
        let mut missing: Vec<usize> = self.rules.iter().map(|rule| rule.positives.len()).collect();
        let stopped = |rule: &Rule| rule.negatives.iter().any(|&atom| stopping.contains(atom));
        let mut derived = AtomSet::empty();
        let mut news: Vec<u32> = Vec::new();
        for rule in self
            .rules
            .iter()
            .filter(|rule| rule.positives.is_empty() && !stopped(rule))
        {
            if derived.insert(rule.head) {
                news.push(rule.head);
            }
        }
        while let Some(atom) = news.pop() {
            for &place in &self.waiting[atom as usize] {
                missing[place] -= 1;
                let rule = self.rules[place];
                if missing[place] == 0 && !stopped(rule) && derived.insert(rule.head) {
                    news.push(rule.head);
                }
            }
        }
        derived
    }
}

/// The admissible model that both sides meet in; `None` if they never meet, which only a
/// loop through a negation can cause.
pub fn model(program: &[Option<Page>]) -> Option<AtomSet> {
    let derivations = Derivations::of(program);
    let mut within = AtomSet::empty();
    loop {
        let around = derivations.unstopped_by(&within);
        if around == within {
            return Some(within);
        }
        let closer = derivations.unstopped_by(&around);
        if closer == within {
            return None;
        }
        within = closer;
    }
}
