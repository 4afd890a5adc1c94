//! Which notions speak of the unmuted rules and which of all, on drawn programs: the first are those of the program
//! without its muted rules, the others those of the program with none muted.

use crate::notation::{of_flavours, small_marked};
use oracle::calls::{self, Validity};
use oracle::generate::marks::{all_unmuted, marked, without_muted, MARKS};
use oracle::generate::table_of;
use oracle::labels::{Label, Labelled};
use oracle::loops::has_loop_through_negation;
use oracle::random::Random;
use oracle::relations::{consequences, justifications, reason, repercussions, spoiler, support};
use oracle::rules::{held, muted, occurring, unmuted, Program};
use oracle::sound::{sound, sound_rules};
use oracle::strata::layers;
use oracle::table::{HELD, MUTED};

/// Small programs and large ones, each with marks of every sort.
fn programs(seed: u64) -> Vec<Program> {
    let mut random = Random::seeded(seed);
    let small = (0..300).map(|_| small_marked(&mut random, 8, 12));
    let mut drawn: Vec<Program> = small.collect();
    drawn.extend(of_flavours(&mut random, 30));
    let each = |program: Program| {
        let ways = MARKS.map(|marks| marked(&mut random, program.clone(), marks));
        ways.to_vec()
    };
    drawn.into_iter().flat_map(each).collect()
}

#[test]
fn muted_rules_have_no_effect_on_any_label_but_occurrence() {
    let (mut kept, mut out) = (0, 0);
    for program in programs(501) {
        let rest = Labelled::of(without_muted(&program));
        let all = Labelled::of(program);
        for (atom, label) in all.occurring() {
            match rest.label(atom) {
                Label::Absent => {
                    assert_eq!(label, Label::Out, "{atom} in {all:?}");
                    out += 1;
                }
                same => {
                    assert_eq!(label, same, "{atom} in {all:?}");
                    kept += 1;
                }
            }
        }
        assert!(rest
            .occurring()
            .all(|(atom, _)| all.label(atom) != Label::Absent));
    }
    assert!(kept > 5_000 && out > 2_000, "{kept} kept, {out} out");
}

#[test]
fn supports_repercussions_and_reasons_are_those_of_the_unmuted_rules() {
    for program in programs(502) {
        let rest = Labelled::of(without_muted(&program));
        let all = Labelled::of(program);
        for atom in 0..256 {
            assert_eq!(support(&all, atom), support(&rest, atom), "{atom}: {all:?}");
            assert_eq!(reason(&all, atom), reason(&rest, atom), "{atom}: {all:?}");
        }
        for atom in occurring(&all.program).ascending().take(12) {
            let told = repercussions(&all, atom);
            assert_eq!(told, repercussions(&rest, atom), "{atom}: {all:?}");
        }
    }
}

#[test]
fn justifications_consequences_loops_and_layers_are_those_of_all_rules() {
    for program in programs(503) {
        let none_muted = Labelled::of(all_unmuted(&program));
        assert!(!has_loop_through_negation(&program));
        assert_eq!(layers(&program), layers(&none_muted.program));
        assert_eq!(occurring(&program), occurring(&none_muted.program));
        let all = Labelled::of(program);
        for atom in 0..256 {
            assert_eq!(
                justifications(&all, atom),
                justifications(&none_muted, atom)
            );
            assert_eq!(consequences(&all, atom), consequences(&none_muted, atom));
        }
    }
}

#[test]
fn a_muted_rule_is_told_as_muted_and_each_other_as_it_would_be_without_the_muted_ones() {
    let (mut told, mut valid, mut spoiled) = (0, 0, 0);
    for program in programs(504).into_iter().step_by(5) {
        let table = table_of(program.clone());
        let rest = table_of(without_muted(&program));
        for (slot, _) in muted(&program) {
            assert_eq!(calls::spoiler(&table, slot), Ok(Validity::Muted));
            told += 1;
        }
        for (slot, rule) in unmuted(&program).take(20) {
            let answer = calls::spoiler(&table, slot).expect("a held rule");
            assert_eq!(Ok(answer), calls::spoiler(&rest, slot));
            let head_in = matches!(calls::label(&table, rule.head), Ok(Label::In { .. }));
            assert!(answer != Validity::Valid || head_in, "{slot}: {program:?}");
            valid += usize::from(answer == Validity::Valid);
            spoiled += usize::from(answer != Validity::Valid);
        }
    }
    assert!(told > 500 && valid > 200 && spoiled > 200);
}

#[test]
fn unmuting_every_rule_one_by_one_is_accepted_and_leaves_the_table_of_all() {
    for program in programs(505).into_iter().step_by(7) {
        let mut table = table_of(program.clone());
        for (slot, _) in muted(&program) {
            assert_eq!(calls::mute(&mut table, slot, 0), Ok(()));
        }
        assert_eq!(table, table_of(all_unmuted(&program)));
    }
}

#[test]
fn muting_and_unmuting_gives_the_same_table_and_so_does_unmuting_and_muting() {
    let mut random = Random::seeded(506);
    for _ in 0..200 {
        let program = small_marked(&mut random, 8, 12);
        let before = table_of(program.clone());
        for (slot, _) in held(&program) {
            let mark = u32::from(before.rules[slot as usize].state == MUTED);
            let mut table = before.clone();
            assert_eq!(calls::mute(&mut table, slot, 1 - mark), Ok(()));
            assert_ne!(table, before);
            assert!(sound(&table));
            assert_eq!(calls::mute(&mut table, slot, mark), Ok(()));
            assert_eq!(table, before);
        }
    }
}

#[test]
fn a_mark_that_is_another_is_sound_exactly_if_no_label_moves_by_it_and_nothing_spoils_the_rule() {
    let mut random = Random::seeded(507);
    let mut seen = [0, 0];
    for _ in 0..600 {
        let program = small_marked(&mut random, 7, 10);
        let labelled = Labelled::of(program);
        let table = table_of(labelled.program.clone());
        for (slot, rule) in held(&labelled.program) {
            let mut flipped = table.clone();
            let state = &mut flipped.rules[slot as usize].state;
            *state = HELD + MUTED - *state;
            let rules = sound_rules(&flipped).expect("sound rules");
            let is_valid = spoiler(&labelled, rule).is_none();
            let stays = is_valid && Labelled::of(rules).labels == labelled.labels;
            assert_eq!(sound(&flipped), stays, "{slot} in {labelled:?}");
            seen[usize::from(stays)] += 1;
        }
    }
    assert!(seen.iter().all(|&count| count > 150), "{seen:?}");
}

#[test]
fn no_other_number_is_a_state() {
    let mut random = Random::seeded(508);
    for _ in 0..20 {
        let program = small_marked(&mut random, 6, 6);
        let table = table_of(program.clone());
        for (slot, _) in held(&program) {
            for state in (3..=300).chain([512, 513, 514, 32_768, 32_769, 65_534, 65_535]) {
                let mut other = table.clone();
                other.rules[slot as usize].state = state;
                assert!(!sound(&other), "{state} in {slot}");
            }
        }
    }
}
