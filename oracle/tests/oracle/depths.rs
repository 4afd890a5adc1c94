//! Depth and supporting slot, against every derivation written out.

use crate::notation::{labels, of_flavours, small_marked, table};
use oracle::alternation::model;
use oracle::atoms::AtomSet;
use oracle::depth::depths;
use oracle::generate::edges;
use oracle::labels::{Label, Labelled};
use oracle::random::Random;
use oracle::rules::{unmuted, Page, Program, Rule};
use std::collections::BTreeSet;

/// A derivation: the slot of its last rule, and one of each positive entry.
#[derive(Clone)]
struct Derivation {
    slot: u32,
    below: Vec<Derivation>,
}

impl Derivation {
    fn height(&self) -> u32 {
        1 + self.below.iter().map(Derivation::height).max().unwrap_or(0)
    }
}

/// Every derivation of the atom of at most that many levels.
fn derivations(program: &[Option<Page>], m: &AtomSet, atom: u32, levels: u32) -> Vec<Derivation> {
    if levels == 0 {
        return Vec::new();
    }
    let mut found = Vec::new();
    for (slot, rule) in unmuted(program).filter(|(_, rule)| rule.head == atom && rule.valid_in(m)) {
        let mut bodies: Vec<Vec<Derivation>> = vec![Vec::new()];
        for &entry in &rule.positives {
            let of_entry = derivations(program, m, entry, levels - 1);
            let longer = |body: &Vec<Derivation>, next: &Derivation| {
                [&body[..], std::slice::from_ref(next)].concat()
            };
            bodies = bodies
                .iter()
                .flat_map(|body| of_entry.iter().map(move |next| longer(body, next)))
                .collect();
        }
        found.extend(bodies.into_iter().map(|below| Derivation { slot, below }));
    }
    found
}

fn least_height(all: &[Derivation]) -> Option<u32> {
    all.iter().map(Derivation::height).min()
}

/// At most two positive entries each, so that the derivations stay few enough to write out.
fn narrow_program(random: &mut Random) -> Program {
    let mut program = small_marked(random, 5, 8);
    for page in program.iter_mut().flatten() {
        let most = random.between(1, 2);
        page.rule.positives = page.rule.positives.iter().copied().take(most).collect();
    }
    program
}

#[test]
fn depth_is_the_least_height_of_a_derivation() {
    let mut random = Random::seeded(31);
    let mut deepest = 0;
    for _ in 0..6_000 {
        let program = narrow_program(&mut random);
        let m = model(&program).expect("a program without loops through a negation");
        let depths = depths(&program, &m);
        for atom in m.ascending() {
            let all = derivations(&program, &m, atom, 4);
            let depth = depths[atom as usize].expect("an atom of the model has a depth");
            assert_eq!(
                least_height(&all).unwrap_or(5),
                depth,
                "{atom} in {program:?}"
            );
            deepest = deepest.max(depth);
        }
        assert!(
            (0..256).all(|atom| m.contains(atom) == depths[atom as usize].is_some()),
            "{program:?}"
        );
    }
    assert!(deepest >= 4, "some derivation is deep: {deepest}");
}

/// One more than the deepest positive entry, the least over the valid rules of the atom. On
/// atoms with a derivation no other numbers than the depths solve this for all atoms at once.
#[test]
fn on_large_tables_depths_are_one_more_than_what_the_best_rule_rests_on() {
    let mut random = Random::seeded(33);
    let generated = of_flavours(&mut random, 180).into_iter();
    for program in generated.chain(edges::programs()) {
        let m = model(&program).expect("no loop through a negation");
        let depths = depths(&program, &m);
        let rests_on = |rule: &Rule| {
            rule.positives
                .iter()
                .map(|&entry| depths[entry as usize].unwrap())
                .max()
        };
        for atom in m.ascending() {
            let valid =
                unmuted(&program).filter(|(_, rule)| rule.head == atom && rule.valid_in(&m));
            let least = valid.map(|(_, rule)| 1 + rests_on(rule).unwrap_or(0)).min();
            assert_eq!(depths[atom as usize], least, "{atom} in {program:?}");
        }
    }
}

#[test]
fn the_supporting_rule_is_the_lowest_valid_one_with_smaller_depths_below() {
    let mut random = Random::seeded(32);
    let mut passed_over = 0;
    for _ in 0..3_000 {
        let labelled = Labelled::of(narrow_program(&mut random));
        for (atom, label) in labelled.occurring() {
            let Label::In { depth, slot } = label else {
                continue;
            };
            let shallower = |entry: u32| matches!(labelled.label(entry), Label::In { depth: d, .. } if d < depth);
            let below = |rule: &Rule| rule.positives.iter().all(|&entry| shallower(entry));
            let valid = |rule: &Rule| {
                rule.positives.iter().all(|&entry| labelled.is_in(entry))
                    && rule.negatives.iter().all(|&entry| !labelled.is_in(entry))
            };
            let of_atom = || unmuted(&labelled.program).filter(|(_, rule)| rule.head == atom);
            assert!(of_atom().any(|(other, _)| other == slot), "{labelled:?}");
            for (other, rule) in of_atom() {
                assert!(
                    other != slot || valid(rule) && below(rule),
                    "{atom} in {labelled:?}"
                );
                assert!(
                    other >= slot || !(valid(rule) && below(rule)),
                    "{atom} in {labelled:?}"
                );
                passed_over += usize::from(other < slot && valid(rule));
            }
        }
    }
    assert!(
        passed_over > 10,
        "lower valid slots are passed over for their depths: {passed_over}"
    );
}

#[test]
fn a_derivation_of_least_height_may_end_in_another_rule_than_the_supporting_one() {
    let table = table(&["3 <", "2 < 3", "1 < 2", "4 < 1 3", "4 < 3"]);
    assert_eq!(
        labels(&table),
        ["1 in 3 2", "2 in 2 1", "3 in 1 0", "4 in 2 4"]
    );
}

#[test]
fn every_derivation_of_a_fact_alone_is_the_fact() {
    let program = vec![Some(Page::unmuted(Rule::of(1, &[], &[])))];
    let m: AtomSet = [1].into_iter().collect();
    let all = derivations(&program, &m, 1, 9);
    assert_eq!((all.len(), all[0].slot, all[0].height()), (1, 0, 1));
}

#[test]
fn depth_runs_to_the_number_of_atoms_whichever_way_the_slots_go() {
    let chain = |atom: u32| Rule {
        head: atom,
        positives: atom.checked_sub(1).into_iter().collect(),
        negatives: BTreeSet::new(),
    };
    let up = (0..256).map(|atom| Page::unmuted(chain(atom)));
    let up: Program = up.map(Some).collect();
    let down: Program = up.iter().rev().cloned().collect();
    for (program, first_slot) in [(up, 0i64), (down, 255)] {
        let labelled = Labelled::of(program);
        for atom in 0..256 {
            let slot = (i64::from(atom) - first_slot).unsigned_abs() as u32;
            assert_eq!(
                labelled.label(atom),
                Label::In {
                    depth: atom + 1,
                    slot
                }
            );
        }
    }
}
