//! Trees that say why: small tables of the specification, and what holds of the tree of any table.

mod common;

use common::{fourth_example, table, Random};
use std::collections::BTreeSet;
use yeqontur::{Because, Label, Side, Stop, Stopped, Table, Validity, Why};

/// The tree on one line: `1 in 2 by 0 (2 in 1 by 2)`, `1 out (0 needs 2 out; 3 muted)`.
fn told(why: &Why) -> String {
    let label = match why.label {
        Label::Absent => "absent".to_string(),
        Label::Out => "out".to_string(),
        Label::In { depth, slot } => format!("in {depth} by {slot}"),
    };
    let branches: Vec<String> = match &why.because {
        Because::Absent => vec![],
        Because::Supported { from, .. } => from.iter().map(told).collect(),
        Because::Stopped(rules) => rules.iter().map(told_stop).collect(),
        Because::Above => vec!["above".to_string()],
        Because::Earlier => vec!["earlier".to_string()],
        other => panic!("{other:?}"),
    };
    match &branches[..] {
        [] => format!("{} {label}", why.atom),
        _ => format!("{} {label} ({})", why.atom, branches.join("; ")),
    }
}

fn told_stop(Stopped { rule, stop, .. }: &Stopped) -> String {
    let how = match stop {
        Stop::Spoiled { side, by, .. } => match side {
            Side::Positive => format!("needs {}", told(by)),
            Side::Negative => format!("blocked by {}", told(by)),
        },
        Stop::Muted => "muted".to_string(),
        other => panic!("{other:?}"),
    };
    format!("{} {how}", rule.slot)
}

fn shows(t: &Table, atom: u32, tree: &str) {
    assert_eq!(told(&t.why(atom).expect("an atom")), tree);
}

#[test]
fn t2_a_fact_and_what_follows() {
    let t = table(&[(1, &[], &[]), (2, &[1], &[])]);
    shows(&t, 1, "1 in 1 by 0");
    shows(&t, 2, "2 in 2 by 1 (1 in 1 by 0)");
    shows(&t, 3, "3 absent");
}

#[test]
fn t4_two_that_name_each_other() {
    let mut t = table(&[(1, &[2], &[]), (2, &[1], &[]), (2, &[], &[])]);
    shows(&t, 1, "1 in 2 by 0 (2 in 1 by 2)");
    assert_eq!(t.remove(2), Ok(()));
    shows(&t, 1, "1 out (0 needs 2 out (1 needs 1 out (above)))");
    shows(&t, 2, "2 out (1 needs 1 out (0 needs 2 out (above)))");
}

#[test]
fn t5_a_negation() {
    let mut t = table(&[(1, &[], &[2])]);
    shows(&t, 1, "1 in 1 by 0");
    shows(&t, 2, "2 out");
    assert_eq!(t.add(2, &[], &[]), Ok(1));
    shows(&t, 1, "1 out (0 blocked by 2 in 1 by 1)");
}

#[test]
fn t8_a_later_fact_is_nearer() {
    let mut t = table(&[(2, &[], &[]), (1, &[2], &[]), (3, &[1], &[])]);
    shows(&t, 3, "3 in 3 by 2 (1 in 2 by 1 (2 in 1 by 0))");
    assert_eq!(t.add(3, &[], &[]), Ok(3));
    shows(&t, 3, "3 in 1 by 3");
}

#[test]
fn t11_the_report_s_fourth_example() {
    let mut t = fourth_example();
    shows(&t, 1, "1 in 3 by 2 (4 in 2 by 3 (3 in 1 by 5))");
    shows(&t, 2, "2 out (1 blocked by 3 in 1 by 5)");
    shows(&t, 5, "5 out");
    assert_eq!(t.add(5, &[], &[]), Ok(6));
    shows(&t, 1, "1 in 2 by 0 (2 in 1 by 1)");
    let three = "3 out (4 needs 4 out (3 needs 3 out (above)); 5 blocked by 5 in 1 by 6)";
    shows(&t, 3, three);
}

#[test]
fn an_entry_in_both_lists_stops_by_what_it_is() {
    let mut t = table(&[(1, &[2], &[2])]);
    shows(&t, 1, "1 out (0 needs 2 out)");
    assert_eq!(t.add(2, &[], &[]), Ok(1));
    shows(&t, 1, "1 out (0 blocked by 2 in 1 by 1)");
}

/// A muted rule is told as muted, whether it would be valid (slot 0) or spoiled (1), and its entries have no branches.
#[test]
fn a_muted_rule_of_an_out_atom_is_told_as_muted() {
    let mut t = table(&[
        (1, &[2], &[]),
        (1, &[3], &[2]),
        (1, &[4], &[]),
        (2, &[], &[]),
    ]);
    assert_eq!((t.mute(0), t.mute(1)), (Ok(()), Ok(())));
    shows(&t, 1, "1 out (0 muted; 1 muted; 2 needs 4 out)");
    assert_eq!((t.mute(2), t.mute(3)), (Ok(()), Ok(())));
    shows(&t, 1, "1 out (0 muted; 1 muted; 2 muted)");
    shows(&t, 2, "2 out (3 muted)");
    shows(&t, 3, "3 out");
    assert_eq!((t.unmute(0), t.unmute(3)), (Ok(()), Ok(())));
    shows(&t, 1, "1 in 2 by 0 (2 in 1 by 3)");
}

/// A reason of muted rules alone has branches too, and is told once.
#[test]
fn muted_rules_are_told_once() {
    let mut t = table(&[
        (1, &[2, 3], &[]),
        (1, &[3], &[]),
        (3, &[], &[]),
        (2, &[], &[]),
    ]);
    assert_eq!(t.mute(2), Ok(()));
    shows(
        &t,
        1,
        "1 out (0 needs 3 out (2 muted); 1 needs 3 out (earlier))",
    );
}

#[test]
fn a_reason_with_branches_is_told_once() {
    let t = table(&[
        (0, &[], &[]),
        (1, &[0], &[]),
        (2, &[1, 0], &[]),
        (3, &[2, 1, 0], &[]),
    ]);
    let tree = "3 in 4 by 3 (0 in 1 by 0; 1 in 2 by 1 (0 in 1 by 0); 2 in 3 by 2 (0 in 1 by 0; 1 in 2 by 1 (earlier)))";
    shows(&t, 3, tree);
}

#[test]
fn the_tree_of_a_table_with_many_paths_stays_small() {
    let mut t = table(&[(0, &[], &[]), (1, &[0], &[])]);
    for atom in 2..250 {
        assert!(t.add(atom, &[atom - 1, atom - 2], &[]).is_ok());
    }
    assert!(nodes(&t.why(249).expect("an atom")).len() <= 1 + 2 * 250);
}

/// Every node of a tree, the first one included.
fn nodes(why: &Why) -> Vec<&Why> {
    let mut all = vec![why];
    match &why.because {
        Because::Supported { from, .. } => all.extend(from.iter().flat_map(nodes)),
        Because::Stopped(rules) => all.extend(rules.iter().flat_map(|s| match &s.stop {
            Stop::Spoiled { by, .. } => nodes(by),
            _ => Vec::new(),
        })),
        _ => {}
    }
    all
}

/// What is told of a stopped rule is what the calls answer.
fn stops(t: &Table, Stopped { rule, stop, .. }: &Stopped) {
    assert_eq!(rule.muted, *stop == Stop::Muted);
    let validity = match stop {
        Stop::Muted => Validity::Muted,
        Stop::Spoiled { side, place, by } => {
            assert_eq!(*side == Side::Negative, by.label.is_in());
            assert_eq!(rule.list(*side)[*place as usize], by.atom);
            let (side, place, atom) = (*side, *place, by.atom);
            Validity::Spoiled { side, place, atom }
        }
        other => panic!("{other:?}"),
    };
    assert_eq!(stop.to_string(), validity.to_string());
    assert_eq!(t.spoiler(rule.slot), Ok(validity));
}

/// What one node tells is what the calls answer.
fn holds(t: &Table, why: &Why) {
    assert_eq!(t.label(why.atom), Ok(why.label));
    match (&why.because, why.label) {
        (Because::Supported { rule, from }, Label::In { slot, .. }) => {
            assert_eq!((rule.slot, rule.head), (slot, why.atom));
            assert!(!rule.muted);
            assert!(rule.positives.iter().eq(from.iter().map(|w| &w.atom)));
            assert!(rule.negatives.iter().all(|&x| t.label(x) == Ok(Label::Out)));
        }
        (Because::Stopped(rules), Label::Out) => {
            let slots: Vec<u32> = rules.iter().map(|s| s.rule.slot).collect();
            assert_eq!(t.justifications(why.atom), Ok(slots));
            rules.iter().for_each(|stopped| stops(t, stopped));
        }
        (Because::Above, Label::Out) | (Because::Absent, Label::Absent) => {}
        (Because::Earlier, Label::Out | Label::In { .. }) => {}
        told => panic!("{told:?}"),
    }
}

#[test]
fn every_node_tells_what_the_calls_answer() {
    let mut random = Random(7);
    for _ in 0..60 {
        let t = random.muted_table(80, 20, 4);
        for atom in 0..21 {
            let why = t.why(atom).expect("an atom");
            nodes(&why).iter().for_each(|node| holds(&t, node));
        }
    }
}

#[test]
fn the_tree_of_an_in_atom_has_the_slots_of_its_reason() {
    let mut random = Random(8);
    for _ in 0..60 {
        let t = random.muted_table(80, 20, 4);
        for (atom, _) in t.labels().filter(|(_, label)| label.is_in()) {
            let why = t.why(atom).expect("an atom");
            let slots = nodes(&why).into_iter().filter_map(|node| match node.label {
                Label::In { slot, .. } => Some(slot),
                _ => None,
            });
            let reason = t.reason(atom).expect("an in atom");
            assert_eq!(
                slots.collect::<BTreeSet<u32>>(),
                reason.into_iter().collect()
            );
        }
    }
}
