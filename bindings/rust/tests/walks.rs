//! The walks over labels and rules give what the calls give.

mod common;

use common::{table, Random};
use yeqontur::{Label, Rule, Side, Table};

#[test]
fn an_empty_table_has_nothing_to_walk() {
    let t = Table::new();
    assert_eq!((t.labels().count(), t.rules().count()), (0, 0));
}

#[test]
fn labels_of_the_atoms_that_occur_ascending() {
    let t = table(&[(9, &[2], &[7]), (2, &[], &[])]);
    let labels: Vec<_> = t.labels().collect();
    let expected = [
        (2, Label::In { depth: 1, slot: 1 }),
        (7, Label::Out),
        (9, Label::In { depth: 2, slot: 0 }),
    ];
    assert_eq!(labels, expected);
}

#[test]
fn rules_by_slot_without_the_free_ones_each_list_ascending_muted_or_not() {
    let mut t = table(&[(9, &[2, 1], &[7]), (2, &[], &[]), (255, &[], &[9, 3])]);
    assert_eq!(t.remove(1), Ok(()));
    assert_eq!(t.mute(2), Ok(()));
    let rules: Vec<Rule> = t.rules().collect();
    let fields: Vec<(u32, u32, bool)> = rules.iter().map(|r| (r.slot, r.head, r.muted)).collect();
    assert_eq!(fields, [(0, 9, false), (2, 255, true)]);
    let lists = |side| rules.iter().map(|r| r.list(side)).collect::<Vec<_>>();
    assert_eq!(lists(Side::Positive), [&[1, 2][..], &[]]);
    assert_eq!(lists(Side::Negative), [[7].as_slice(), &[3, 9]]);
    let written: Vec<String> = rules.iter().map(Rule::to_string).collect();
    assert_eq!(written, ["9 < 1, 2, not 7", "255 < not 3, not 9"]);
}

#[test]
fn walks_agree_with_the_calls() {
    let mut random = Random(5);
    for round in 0..20 {
        let t = random.muted_table(20 + 20 * round, 6 + 12 * round, 4);
        let mut walked = t.labels();
        for atom in 0..256 {
            match t.label(atom) {
                Ok(Label::Absent) => {}
                label => assert_eq!(walked.next().map(|(a, l)| (a, Ok(l))), Some((atom, label))),
            }
        }
        assert_eq!(walked.next(), None);
        let held: Vec<Rule> = (0..256).filter_map(|slot| t.rule(slot).ok()).collect();
        assert!(t.rules().eq(held));
    }
}

#[test]
fn the_rules_walked_over_make_the_same_table_again() {
    let t = Random(6).table(300, 40);
    let mut again = Table::new();
    for rule in t.rules() {
        assert_eq!(
            again.add(rule.head, &rule.positives, &rule.negatives),
            Ok(rule.slot)
        );
    }
    assert_eq!(again, t);
}
