//! Muting a rule without losing it: labels go by the rules that are not muted, and muted ones count where it matters
//! what is held.

mod common;

use common::{table, word, Place, Random};
use yeqontur::raw::{self, SpoilerAnswer};
use yeqontur::{Label, Refusal, Rule, Side, Table, Validity};

/// The labels of the atoms that occur, on one line: `1 in 1 0, 2 out`.
fn labels(t: &Table) -> String {
    let told = |(atom, label)| match label {
        Label::In { depth, slot } => format!("{atom} in {depth} {slot}"),
        _ => format!("{atom} out"),
    };
    t.labels().map(told).collect::<Vec<String>>().join(", ")
}

fn muted_slots(t: &Table) -> Vec<u32> {
    let muted = t.rules().filter(|rule| rule.muted);
    muted.map(|rule| rule.slot).collect()
}

/// A table with the rules in these slots muted.
fn with_muted(t: &Table, slots: &[u32]) -> Table {
    let mut t = t.clone();
    for &slot in slots {
        assert_eq!(t.mute(slot), Ok(()), "slot {slot}");
    }
    t
}

/// A folder is complete if both files are good; the second one's rule is muted for an afternoon.
#[test]
fn mute_look_and_unmute() {
    let mut t = table(&[
        (3, &[1], &[2]),
        (6, &[4], &[5]),
        (7, &[3, 6], &[]),
        (1, &[], &[]),
        (4, &[], &[]),
    ]);
    let before = t.clone();
    assert_eq!(
        labels(&t),
        "1 in 1 3, 2 out, 3 in 2 0, 4 in 1 4, 5 out, 6 in 2 1, 7 in 3 2"
    );
    assert_eq!(t.mute(1), Ok(()));
    assert_eq!(
        labels(&t),
        "1 in 1 3, 2 out, 3 in 2 0, 4 in 1 4, 5 out, 6 out, 7 out"
    );
    assert_eq!(muted_slots(&t), [1]);
    assert_eq!(t.rule(1).expect("a rule").to_string(), "6 < 4, not 5");
    assert_eq!(t.unmute(1), Ok(()));
    assert!(t.as_raw().as_bytes() == before.as_raw().as_bytes());
}

/// Of two rules the other one supports now, and a negation that was blocked is not.
#[test]
fn depth_support_and_negations_go_by_the_other_rules() {
    let t = table(&[
        (1, &[], &[]),
        (2, &[1], &[]),
        (2, &[], &[]),
        (3, &[], &[2]),
        (4, &[2], &[]),
    ]);
    assert_eq!(labels(&t), "1 in 1 0, 2 in 1 2, 3 out, 4 in 2 4");
    let one = with_muted(&t, &[2]);
    assert_eq!(labels(&one), "1 in 1 0, 2 in 2 1, 3 out, 4 in 3 4");
    let both = with_muted(&t, &[2, 1]);
    assert_eq!(labels(&both), "1 in 1 0, 2 out, 3 in 1 3, 4 out");
    let fact = with_muted(&t, &[0]);
    assert_eq!(labels(&fact), "1 out, 2 in 1 2, 3 out, 4 in 2 4");
}

#[test]
fn setting_what_is_set_is_accepted_and_changes_nothing() {
    let mut t = table(&[(1, &[], &[]), (2, &[1], &[])]);
    let before = t.clone();
    assert_eq!(t.unmute(0), Ok(()));
    assert_eq!(t, before);
    assert_eq!(t.mute(0), Ok(()));
    let muted = t.clone();
    assert_ne!(muted, before);
    assert_eq!(t.mute(0), Ok(()));
    assert_eq!(t, muted);
    assert_eq!((t.unmute(0), t.unmute(0)), (Ok(()), Ok(())));
    assert_eq!(t, before);
}

#[test]
fn every_number_but_0_mutes() {
    let t = table(&[(1, &[], &[]), (2, &[1], &[])]);
    let muted = with_muted(&t, &[0]);
    for number in [1, 2, 3, 255, 256, 65_536, 1 << 31, u32::MAX] {
        let told = raw::mute(t.as_raw(), 0, number);
        assert_eq!(told.refused, 0, "{number}");
        assert!(told.table == *muted.as_raw(), "{number}");
    }
    let told = raw::mute(muted.as_raw(), 0, 0);
    assert_eq!(told.refused, 0);
    assert!(told.table == *t.as_raw());
}

/// 15 before 8, whatever the number that mutes, and the table comes back as it came.
#[test]
fn questions_in_their_order() {
    let t = with_muted(&table(&[(1, &[], &[]), (2, &[3, 1], &[])]), &[1]);
    let mut label = *t.as_raw();
    *word(&mut label, 0, Place::Depth) = 2;
    let mut state = *t.as_raw();
    *word(&mut state, 1, Place::State) = 3;
    let mut unmuted = *t.as_raw();
    *word(&mut unmuted, 0, Place::State) = 2; // by hand, and its depth is still there
    for (fields, slot, number) in [
        (label, 0, 15),
        (label, 256, 15),
        (state, 1, 15),
        (unmuted, 0, 15),
        (raw::Table::from_bytes(&[0xa5; 7168]), 2, 15),
        (*t.as_raw(), 256, 8),
        (*t.as_raw(), u32::MAX, 8),
        (*t.as_raw(), 2, 9),
        (*t.as_raw(), 255, 9),
    ] {
        for muted in [0, 1, 2, u32::MAX] {
            let told = raw::mute(&fields, slot, muted);
            assert_eq!(told.refused, number, "slot {slot}");
            assert!(told.table == fields);
        }
    }
    let mut same = t.clone();
    for (slot, refusal) in [(256, Refusal::SlotTooLarge), (2, Refusal::SlotFree)] {
        assert_eq!(same.mute(slot), Err(refusal));
        assert_eq!(same.unmute(slot), Err(refusal));
    }
    assert_eq!(same, t);
}

#[test]
fn atoms_of_muted_rules_occur() {
    let mut t = with_muted(&table(&[(1, &[2], &[3]), (9, &[], &[])]), &[0, 1]);
    assert_eq!(labels(&t), "1 out, 2 out, 3 out, 9 out");
    assert_eq!(t.reason(9), Err(Refusal::AtomNotIn));
    assert_eq!(t.remove(0), Ok(()));
    assert_eq!(labels(&t), "9 out");
    assert_eq!(t.remove(1), Ok(()));
    assert_eq!(t, Table::new());
}

#[test]
fn justifications_and_consequences_have_muted_rules_and_repercussions_do_not() {
    let t = table(&[
        (1, &[], &[]),
        (2, &[1], &[]),
        (2, &[], &[1]),
        (3, &[2], &[]),
    ]);
    assert_eq!(t.repercussions(1), Ok(vec![2, 3]));
    let t = with_muted(&t, &[1, 2]);
    assert_eq!(t.justifications(2), Ok(vec![1, 2]));
    assert_eq!(t.consequences(1), Ok(vec![2]));
    assert_eq!(t.repercussions(1), Ok(vec![]));
    assert_eq!(t.repercussions(2), Ok(vec![3]));
}

#[test]
fn the_same_rule_is_refused_in_any_order() {
    let mut t = with_muted(&table(&[(5, &[1, 2], &[]), (6, &[], &[])]), &[0]);
    let before = t.clone();
    assert_eq!(t.add(5, &[2, 1], &[]), Err(Refusal::SameRule));
    assert_eq!(t.replace(1, 5, &[1, 2], &[]), Err(Refusal::SameRule));
    assert_eq!(t, before);
    let mut twice = *t.as_raw();
    twice.words.copy_within(..14, 14);
    *word(&mut twice, 1, Place::State) = 1;
    *word(&mut twice, 1, Place::Spoiler) = 1;
    assert_eq!(Table::try_from(twice), Err(Refusal::TableUnsound));
}

/// `1 < not 2` and `2 < 1` close a loop, whichever of them is muted; so does one rule by itself.
#[test]
fn loops_count_muted_rules() {
    let mut t = with_muted(&table(&[(1, &[], &[2]), (4, &[], &[])]), &[0]);
    let before = t.clone();
    assert_eq!(t.add(2, &[1], &[]), Err(Refusal::NegativeCycle));
    assert_eq!(t.replace(1, 2, &[1], &[]), Err(Refusal::NegativeCycle));
    assert_eq!(t, before);
    assert_eq!(t.replace(0, 2, &[1], &[]), Ok(()));
    assert_eq!(t.mute(0), Ok(()));
    assert_eq!(t.add(1, &[], &[2]), Err(Refusal::NegativeCycle));
    let mut by_hand = raw::empty();
    *word(&mut by_hand, 0, Place::State) = 2;
    *word(&mut by_hand, 0, Place::Negatives) = 1; // 0 < not 0
    assert_eq!(Table::try_from(by_hand), Err(Refusal::TableUnsound));
}

/// Slot 0 would be valid, slot 1 would need 9, slot 2 would be blocked by 1.
#[test]
fn of_a_muted_rule_it_is_told_that_it_is_muted() {
    let t = table(&[(1, &[], &[]), (2, &[1, 9], &[]), (3, &[], &[1])]);
    let (side, place, atom) = (Side::Positive, 1, 9);
    let needs = Validity::Spoiled { side, place, atom };
    assert_eq!(t.spoiler(0), Ok(Validity::Valid));
    assert_eq!(t.spoiler(1), Ok(needs));
    for slot in 0..3 {
        let t = with_muted(&t, &[slot]);
        assert_eq!(t.spoiler(slot), Ok(Validity::Muted));
        let told = SpoilerAnswer {
            refused: 0,
            spoiled: 3,
            atom: 0,
            place: 0,
        };
        assert_eq!(raw::spoiler(t.as_raw(), slot), told);
    }
    let t = with_muted(&t, &[0]);
    let (place, atom) = (0, 1);
    let needs = Validity::Spoiled { side, place, atom };
    assert_eq!(t.spoiler(1), Ok(needs));
    assert_eq!(t.spoiler(2), Ok(Validity::Valid));
}

#[test]
fn added_and_replaced_rules_are_not_muted() {
    let t = table(&[(1, &[], &[]), (2, &[1], &[]), (3, &[2], &[])]);
    let all = with_muted(&t, &[0, 1, 2]);
    let mut one = all.clone();
    assert_eq!(one.add(1, &[], &[7]), Ok(3));
    assert_eq!(muted_slots(&one), [0, 1, 2]);
    assert_eq!(one.replace(1, 2, &[1], &[]), Ok(()));
    assert_eq!(muted_slots(&one), [0, 2]);
    assert_eq!(one.replace(0, 1, &[], &[]), Ok(()));
    assert_eq!(one.remove(2), Ok(()));
    assert_eq!(muted_slots(&one), [0; 0]);
    assert_eq!(one.add(3, &[2], &[]), Ok(2));
    assert_eq!(one.remove(3), Ok(()));
    assert_eq!(one, t);
}

/// Every change and every refusal leaves the other slots muted or not, as they were.
#[test]
fn other_slots_stay_muted() {
    let mut random = Random(17);
    for _ in 0..200 {
        let mut t = random.muted_table(30, 8, 2);
        let slot = random.below(12);
        let others = |t: &Table| -> Vec<Rule> { t.rules().filter(|r| r.slot != slot).collect() };
        let before = others(&t);
        match random.below(4) {
            0 => drop(t.replace(slot, random.below(8), &random.list(3, 8), &[])),
            1 => drop(t.remove(slot)),
            2 => drop(t.mute(slot)),
            _ => drop(t.unmute(slot)),
        }
        assert_eq!(others(&t), before);
        let held: Vec<Rule> = t.rules().collect();
        if let Ok(new) = t.add(random.below(8), &random.list(3, 8), &[]) {
            assert!(t.rules().filter(|r| r.slot != new).eq(held));
            assert!(!t.rule(new).expect("a rule").muted);
        }
    }
}

/// The table without the muted rules.
fn without(t: &Table) -> Table {
    let mut rest = t.clone();
    for slot in muted_slots(t) {
        assert_eq!(rest.remove(slot), Ok(()));
    }
    rest
}

/// For every atom that occurs there; the others that occur here are out.
#[test]
fn labels_and_reasons_are_those_of_the_table_without_the_muted_rules() {
    let mut random = Random(18);
    let mut only_muted = 0;
    for _ in 0..100 {
        let t = random.muted_table(60, 20, 3);
        let rest = without(&t);
        for (atom, label) in t.labels() {
            match rest.label(atom).expect("an atom") {
                Label::Absent => {
                    assert_eq!(label, Label::Out);
                    only_muted += 1;
                }
                other => assert_eq!(label, other),
            }
            assert_eq!(t.reason(atom), rest.reason(atom));
            assert_eq!(t.repercussions(atom), rest.repercussions(atom));
        }
        for rule in rest.rules() {
            assert_eq!(t.spoiler(rule.slot), rest.spoiler(rule.slot));
        }
        assert!(rest
            .labels()
            .all(|(atom, _)| t.label(atom) != Ok(Label::Absent)));
    }
    assert!(only_muted > 30, "{only_muted} atoms of muted rules alone");
}

/// In any order, and 7 is never met.
#[test]
fn unmuting_all_gives_the_table_that_was_never_muted() {
    let mut random = Random(19);
    for _ in 0..100 {
        let t = random.table(60, 12);
        let held = t.rules().count() as u32;
        let mut changed = t.clone();
        for _ in 0..20 {
            assert_eq!(changed.mute(random.below(held)), Ok(()));
        }
        let mut slots = muted_slots(&changed);
        while !slots.is_empty() {
            let slot = slots.swap_remove(random.below(slots.len() as u32) as usize);
            assert_eq!(changed.unmute(slot), Ok(()));
        }
        assert!(changed.as_raw().as_bytes() == t.as_raw().as_bytes());
    }
}

#[test]
fn a_full_table_of_muted_rules() {
    let mut t = Table::new();
    for atom in 0..256 {
        assert_eq!(t.add(atom, &[], &[]), Ok(atom));
    }
    let before = t.clone();
    let slots: Vec<u32> = (0..256).collect();
    let mut all = with_muted(&t, &slots);
    assert!(all.labels().all(|(_, label)| label == Label::Out));
    assert_eq!(all.labels().count(), 256);
    assert_eq!(all.add(0, &[1], &[]), Err(Refusal::TableFull));
    assert_eq!(Table::load(&all.save()), Ok(all.clone()));
    for slot in slots {
        assert_eq!(all.unmute(slot), Ok(()));
    }
    assert_eq!(all, before);
}

/// The first byte that differs is that of the positive count: its top bit says it. All others are the checksums.
#[test]
fn a_saved_table_says_which_rules_are_muted() {
    let t = table(&[(1, &[], &[]), (9, &[1, 2], &[7])]);
    let muted = with_muted(&t, &[1]);
    let (file, other) = (t.save(), muted.save());
    assert_eq!(file.len(), other.len());
    let count = 6 + 22 + 4; // of the second record
    let changed: Vec<usize> = (0..512).filter(|&i| file[i] != other[i]).collect();
    assert_eq!(changed[0], count);
    assert_eq!((file[count], other[count]), (2, 0x82));
    assert!(changed[1..].iter().all(|&place| place >= 508));
    assert_eq!(Table::load(&file), Ok(t));
    assert_eq!(Table::load(&other), Ok(muted));
}
