//! What stops a rule: the atom, the list that it stands in, and its place there.

mod common;

use common::{table, word, Place, Random};
use yeqontur::raw::{self, SpoilerAnswer};
use yeqontur::{Refusal, Rule, Side, Table, Validity};

fn needs(atom: u32, place: u32) -> Result<Validity, Refusal> {
    let side = Side::Positive;
    Ok(Validity::Spoiled { side, place, atom })
}

fn blocked_by(atom: u32, place: u32) -> Result<Validity, Refusal> {
    let side = Side::Negative;
    Ok(Validity::Spoiled { side, place, atom })
}

#[test]
fn a_rule_that_holds_an_atom_in_both_lists() {
    let mut t = table(&[(1, &[], &[]), (9, &[1, 7], &[6, 5, 7])]);
    assert_eq!(t.spoiler(1), needs(7, 1));
    assert_eq!(t.add(7, &[], &[]), Ok(2));
    assert_eq!(t.spoiler(1), blocked_by(7, 2));
}

#[test]
fn positives_are_read_first() {
    let mut t = table(&[(2, &[], &[]), (9, &[1, 3], &[2])]);
    assert_eq!(t.spoiler(1), needs(1, 0));
    assert_eq!(t.add(1, &[], &[]), Ok(2));
    assert_eq!(t.spoiler(1), needs(3, 1));
    assert_eq!(t.add(3, &[], &[]), Ok(3));
    assert_eq!(t.spoiler(1), blocked_by(2, 0));
    assert_eq!(t.remove(0), Ok(()));
    assert_eq!(t.spoiler(1), Ok(Validity::Valid));
}

#[test]
fn first_and_place_follow_the_kept_order_not_the_order_given() {
    let mut t = table(&[(1, &[], &[]), (9, &[7, 1, 4], &[]), (8, &[], &[6, 1, 0])]);
    assert_eq!(t.spoiler(1), needs(4, 1));
    assert_eq!(t.spoiler(2), blocked_by(1, 1));
    assert_eq!(t.add(6, &[], &[]), Ok(3));
    assert_eq!(t.spoiler(2), blocked_by(1, 1));
    assert_eq!(t.remove(0), Ok(()));
    assert_eq!(t.spoiler(1), needs(1, 0));
    assert_eq!(t.spoiler(2), blocked_by(6, 2));
}

/// The list is named in an order that is not the kept one.
#[test]
fn every_place_of_either_list() {
    let atoms: Vec<u32> = (1..9).collect();
    let given = [4, 8, 1, 5, 2, 7, 3, 6];
    for place in 0..8 {
        let mut t = table(&[(0, &given, &[])]);
        for &atom in &atoms[..place] {
            assert!(t.add(atom, &[], &[]).is_ok());
        }
        let stopper = atoms[place];
        assert_eq!(t.spoiler(0), needs(stopper, place as u32));
        let mut t = table(&[(0, &[], &given)]);
        assert_eq!(t.add(stopper, &[], &[]), Ok(1));
        assert_eq!(t.spoiler(0), blocked_by(stopper, place as u32));
    }
}

/// The entry that stops a rule by the labels of all its entries; none is looked for in a muted rule.
fn first_that_spoils(t: &Table, rule: &Rule) -> Validity {
    if rule.muted {
        return Validity::Muted;
    }
    for side in [Side::Positive, Side::Negative] {
        for (place, &atom) in (0..).zip(rule.list(side)) {
            let is_in = t.label(atom).expect("an atom").is_in();
            if is_in == (side == Side::Negative) {
                return Validity::Spoiled { side, place, atom };
            }
        }
    }
    Validity::Valid
}

#[test]
fn the_stopper_of_any_rule_is_the_first_entry_that_spoils() {
    let mut random = Random(9);
    for _ in 0..60 {
        let t = random.muted_table(80, 12, 4);
        for rule in t.rules() {
            assert_eq!(t.spoiler(rule.slot), Ok(first_that_spoils(&t, &rule)));
        }
    }
}

#[test]
fn repercussions_go_by_the_atom_on_whichever_side_it_stops() {
    let mut t = table(&[(9, &[7], &[7]), (8, &[9], &[])]);
    assert_eq!(t.spoiler(0), needs(7, 0));
    assert_eq!(t.repercussions(7), Ok(vec![8, 9]));
    assert_eq!(t.add(7, &[], &[]), Ok(2));
    assert_eq!(t.spoiler(0), blocked_by(7, 0));
    assert_eq!(t.repercussions(7), Ok(vec![8, 9]));
}

#[test]
fn with_a_valid_rule_or_a_refusal_every_other_number_is_0() {
    let zeros = |refused| SpoilerAnswer {
        refused,
        spoiled: 0,
        atom: 0,
        place: 0,
    };
    let t = table(&[(1, &[], &[2]), (3, &[1, 2], &[])]);
    assert_eq!(raw::spoiler(t.as_raw(), 0), zeros(0));
    assert_eq!(raw::spoiler(t.as_raw(), 256), zeros(8));
    assert_eq!(raw::spoiler(t.as_raw(), 2), zeros(9));
    let mut unsound = *t.as_raw();
    *word(&mut unsound, 0, Place::Depth) = 2;
    assert_eq!(raw::spoiler(&unsound, 1), zeros(15));
}
