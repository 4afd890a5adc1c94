//! Spoilers, supports, repercussions, justifications, consequences and reasons.

use crate::notation::{add, small_marked, table};
use oracle::calls::{self, Validity};
use oracle::labels::{Label, Labelled};
use oracle::random::Random;
use oracle::relations::{consequences, justifications, reason, repercussions, spoiler, support};
use oracle::relations::{Side, Spoiler};
use oracle::rules::{unmuted, Rule};
use oracle::table::RawTable;

/// What a call that lends a buffer writes.
type Listing = fn(&RawTable, u32, &mut [u32]) -> Result<u32, oracle::questions::Refusal>;

fn listed(call: Listing, table: &RawTable, atom: u32) -> Vec<u32> {
    let mut buffer = vec![u32::MAX; 256];
    let count = call(table, atom, &mut buffer).expect("an accepted call") as usize;
    assert!(
        buffer[count..].iter().all(|&entry| entry == u32::MAX),
        "later entries stay"
    );
    buffer.truncate(count);
    buffer
}

/// What stops the rule in a slot, in words: `needs 7 at 0`, `blocked by 7 at 0`.
fn stopper(table: &RawTable, slot: u32) -> String {
    match calls::spoiler(table, slot).expect("a held slot") {
        Validity::Valid => "valid".to_string(),
        Validity::Muted => "muted".to_string(),
        Validity::Spoiled(Spoiler { side, place, atom }) => match side {
            Side::Positive => format!("needs {atom} at {place}"),
            Side::Negative => format!("blocked by {atom} at {place}"),
        },
    }
}

#[test]
fn the_spoiler_is_the_first_spoiling_entry_positives_read_first() {
    let table = table(&["1 <", "2 <", "9 < 7 1 6 !2", "8 < 1 !5 !2 !0", "7 < 1 !6"]);
    let stoppers: Vec<String> = (0..5).map(|slot| stopper(&table, slot)).collect();
    assert_eq!(
        stoppers,
        [
            "valid",
            "valid",
            "needs 6 at 1",
            "blocked by 2 at 1",
            "valid"
        ]
    );
}

#[test]
fn an_atom_in_both_lists_spoils_on_the_side_that_its_label_says() {
    let mut table = table(&["1 <", "9 < 1 7 !6 !5 !7"]);
    assert_eq!(stopper(&table, 1), "needs 7 at 1");
    assert_eq!(add(&mut table, "7 <"), Ok(2));
    assert_eq!(stopper(&table, 1), "blocked by 7 at 2");
    assert_eq!(add(&mut table, "6 <"), Ok(3));
    assert_eq!(stopper(&table, 1), "blocked by 6 at 1");
    assert_eq!(calls::remove(&mut table, 0), Ok(()));
    assert_eq!(stopper(&table, 1), "needs 1 at 0");
}

#[test]
fn the_last_place_of_either_list() {
    let facts = ["1 <", "2 <", "3 <", "4 <", "5 <", "6 <", "7 <"];
    let needs = table(&[&facts[..], &["9 < 1 2 3 4 5 6 7 8"]].concat());
    assert_eq!(stopper(&needs, 7), "needs 8 at 7");
    let blocked = table(&["8 <", "9 < !8 !7 !6 !5 !4 !3 !2 !1"]);
    assert_eq!(stopper(&blocked, 1), "blocked by 8 at 7");
}

#[test]
fn first_and_place_follow_the_kept_order_not_the_order_given() {
    let mut table = table(&["1 <", "9 < 7 1 4", "8 < !6 !1 !0"]);
    assert_eq!(stopper(&table, 1), "needs 4 at 1");
    assert_eq!(stopper(&table, 2), "blocked by 1 at 1");
    assert_eq!(add(&mut table, "6 <"), Ok(3));
    assert_eq!(stopper(&table, 2), "blocked by 1 at 1");
    assert_eq!(calls::remove(&mut table, 0), Ok(()));
    assert_eq!(stopper(&table, 1), "needs 1 at 0");
    assert_eq!(stopper(&table, 2), "blocked by 6 at 2");
}

#[test]
fn supports_and_repercussions_go_by_the_atom_on_whichever_side_it_spoils() {
    let mut table = table(&["9 < 7 !7", "9 < 5 7", "8 < 9", "5 <"]);
    assert_eq!(stopper(&table, 0), "needs 7 at 0");
    assert_eq!(stopper(&table, 1), "needs 7 at 1");
    let spoiling = |table: &RawTable| {
        let labelled = Labelled::of(oracle::sound::sound_rules(table).unwrap());
        support(&labelled, 9).ascending().collect::<Vec<u32>>()
    };
    assert_eq!(spoiling(&table), [7]);
    assert_eq!(listed(calls::repercussions, &table, 7), [8, 9]);
    assert_eq!(calls::remove(&mut table, 1), Ok(()));
    assert_eq!(add(&mut table, "7 <"), Ok(1));
    assert_eq!(stopper(&table, 0), "blocked by 7 at 0");
    assert_eq!(spoiling(&table), [7]);
    assert_eq!(listed(calls::repercussions, &table, 7), [8, 9]);
}

/// Every entry that spoils, the positive list first.
fn spoiling(labelled: &Labelled, rule: &Rule) -> Vec<Spoiler> {
    let sides = [
        (Side::Positive, &rule.positives),
        (Side::Negative, &rule.negatives),
    ];
    let entries = sides.into_iter().flat_map(|(side, list)| {
        (0..)
            .zip(list)
            .map(move |(place, &atom)| Spoiler { side, place, atom })
    });
    entries
        .filter(|entry| labelled.is_in(entry.atom) == (entry.side == Side::Negative))
        .collect()
}

#[test]
fn a_rule_has_a_spoiler_exactly_if_it_is_not_valid_and_the_spoiler_spoils() {
    let mut random = Random::seeded(41);
    let mut seen = [0; 4];
    for _ in 0..1_000 {
        let labelled = Labelled::of(small_marked(&mut random, 8, 12));
        for (_, rule) in unmuted(&labelled.program) {
            let spoiling = spoiling(&labelled, rule);
            assert_eq!(
                spoiler(&labelled, rule),
                spoiling.first().copied(),
                "{rule:?} in {labelled:?}"
            );
            assert!(
                !spoiling.is_empty() || labelled.is_in(rule.head),
                "{rule:?} in {labelled:?}"
            );
            seen[match spoiling.first() {
                None => 0,
                Some(s) if s.place > 0 => 1,
                Some(s) if s.side == Side::Positive => 2,
                Some(_) => 3,
            }] += 1;
        }
    }
    assert!(
        seen.iter().all(|&count| count > 100),
        "valid, later places and both sides occur: {seen:?}"
    );
}

#[test]
fn the_support_of_an_in_atom_has_the_negative_entries_too() {
    let table = table(&["3 <", "1 < 3 !2 !4", "1 <"]);
    assert_eq!(
        listed(calls::repercussions, &table, 2),
        [],
        "1 rests on the fact in slot 2: its depth is 1"
    );
    let labelled = Labelled::of(oracle::sound::sound_rules(&table).unwrap());
    assert_eq!(support(&labelled, 1).ascending().count(), 0);
    let negated = crate::notation::table(&["3 <", "1 < 3 !2 !4"]);
    assert_eq!(listed(calls::repercussions, &negated, 2), [1]);
    assert_eq!(listed(calls::repercussions, &negated, 4), [1]);
    assert_eq!(listed(calls::repercussions, &negated, 3), [1]);
}

#[test]
fn a_fact_in_a_higher_slot_leaves_the_support_to_the_lower_slot() {
    let table = table(&["1 < !2", "1 <"]);
    assert_eq!(calls::label(&table, 1), Ok(Label::In { depth: 1, slot: 0 }));
    assert_eq!(listed(calls::repercussions, &table, 2), [1]);
}

/// Steps to an affected atom, closed over all atoms in between.
fn closed_steps(labelled: &Labelled) -> Vec<Vec<bool>> {
    let supports: Vec<_> = (0..256).map(|atom| support(labelled, atom)).collect();
    let atoms: Vec<u32> = labelled.occurring().map(|(atom, _)| atom).collect();
    let mut steps: Vec<Vec<bool>> = (0..256)
        .map(|a| (0..256).map(|h| supports[h].contains(a)).collect())
        .collect();
    for &between in &atoms {
        for &from in &atoms {
            for &to in &atoms {
                let (b, f, t) = (between as usize, from as usize, to as usize);
                steps[f][t] |= steps[f][b] && steps[b][t];
            }
        }
    }
    steps
}

#[test]
fn repercussions_are_all_atoms_reached_by_one_or_more_steps() {
    let mut random = Random::seeded(42);
    let mut own = 0;
    for _ in 0..400 {
        let labelled = Labelled::of(small_marked(&mut random, 8, 12));
        let steps = closed_steps(&labelled);
        for atom in 0..256u32 {
            let reached: Vec<u32> = (0..256)
                .filter(|&to| steps[atom as usize][to as usize])
                .collect();
            assert_eq!(
                repercussions(&labelled, atom),
                reached,
                "{atom} in {labelled:?}"
            );
            own += usize::from(reached.contains(&atom));
        }
    }
    assert!(own > 20, "some atoms are among their own: {own}");
}

#[test]
fn justifications_and_consequences_go_by_the_rules_alone() {
    let table = table(&["1 < 2", "3 < 1 !2", "1 < !2", "2 < 2", "3 < !2"]);
    assert_eq!(listed(calls::justifications, &table, 1), [0, 2]);
    assert_eq!(listed(calls::justifications, &table, 4), []);
    assert_eq!(listed(calls::consequences, &table, 2), [1, 2, 3]);
    assert_eq!(listed(calls::consequences, &table, 1), [3]);
    assert_eq!(listed(calls::consequences, &table, 200), []);
}

#[test]
fn justifications_and_consequences_name_each_rule_that_they_should() {
    let mut random = Random::seeded(43);
    for _ in 0..300 {
        let labelled = Labelled::of(small_marked(&mut random, 8, 12));
        let rules: Vec<(u32, &Rule)> = oracle::rules::held(&labelled.program).collect();
        for atom in 0..256 {
            let slots = justifications(&labelled, atom);
            assert!(
                slots.windows(2).all(|pair| pair[0] < pair[1]),
                "{labelled:?}"
            );
            assert!(
                rules
                    .iter()
                    .all(|(slot, rule)| slots.contains(slot) == (rule.head == atom)),
                "{labelled:?}"
            );
            let heads = consequences(&labelled, atom);
            assert!(
                heads.windows(2).all(|pair| pair[0] < pair[1]),
                "{labelled:?}"
            );
            let names = |head: u32| {
                rules
                    .iter()
                    .any(|(_, rule)| rule.head == head && rule.entries().any(|e| e == atom))
            };
            assert!(
                (0..256).all(|head| heads.contains(&head) == names(head)),
                "{labelled:?}"
            );
        }
    }
}

#[test]
fn the_reason_goes_from_the_shallowest_to_the_asked_atom_each_atom_once() {
    let table = table(&["1 < 2 3", "3 < 4", "2 < 4", "4 <", "5 < 1 2 !9"]);
    assert_eq!(listed(calls::reason, &table, 5), [3, 2, 1, 0, 4]);
    assert_eq!(listed(calls::reason, &table, 4), [3]);
    assert_eq!(
        calls::reason(&table, 9, &mut []).map_err(|refusal| refusal.number()),
        Err(12)
    );
}

/// The atoms of a reason, gathered as the specification says it (specification 2.13): from an atom
/// to the positive entries of its supporting rule, and on from there.
fn gather(labelled: &Labelled, atom: u32, gathered: &mut Vec<(u32, u32, u32)>) {
    let Label::In { depth, slot } = labelled.label(atom) else {
        panic!("{atom} is not in")
    };
    gathered.push((depth, atom, slot));
    let page = labelled.program[slot as usize].as_ref().unwrap();
    for &entry in &page.rule.positives {
        gather(labelled, entry, gathered);
    }
}

#[test]
fn reasons_hold_the_supporting_slots_of_all_atoms_gathered() {
    let mut random = Random::seeded(44);
    let mut longest = 0;
    for _ in 0..1_000 {
        let labelled = Labelled::of(small_marked(&mut random, 8, 12));
        for atom in 0..256 {
            if !labelled.is_in(atom) {
                assert_eq!(reason(&labelled, atom), None, "{labelled:?}");
                continue;
            }
            let mut gathered = Vec::new();
            gather(&labelled, atom, &mut gathered);
            gathered.sort_unstable();
            gathered.dedup();
            let slots: Vec<u32> = gathered.iter().map(|&(_, _, slot)| slot).collect();
            longest = longest.max(slots.len());
            assert_eq!(
                reason(&labelled, atom),
                Some(slots),
                "{atom} in {labelled:?}"
            );
        }
    }
    assert!(longest >= 4, "some reason is long: {longest}");
}

#[test]
fn labels_are_four_numbers_of_each_atom_that_occurs() {
    let table = table(&["7 <", "3 < 7 !9", "~4 < 200", "5 < 4"]);
    let mut buffer = [99; 25];
    assert_eq!(calls::labels(&table, &mut buffer), Ok(24));
    assert_eq!(
        buffer,
        [3, 2, 2, 1, 4, 1, 0, 0, 5, 1, 0, 0, 7, 2, 1, 0, 9, 1, 0, 0, 200, 1, 0, 0, 99]
    );
    let mut short = [99; 23];
    let needed = oracle::questions::Refusal::BufferTooShort { needed: 24 };
    assert_eq!(calls::labels(&table, &mut short), Err(needed));
    assert_eq!(short, [99; 23]);
    assert_eq!(calls::labels(&RawTable::empty(), &mut []), Ok(0));
}

#[test]
fn the_rule_of_a_slot_is_told_as_it_is_kept() {
    let table = table(&["9 < 7 3 !6 !2", "~8 <"]);
    let told = |slot| calls::rule(&table, slot).map_err(|refusal| refusal.number());
    let whole = calls::Written {
        head: 9,
        muted: false,
        positives: 2,
        negatives: 2,
        entries: [3, 7, 2, 6, 0, 0, 0, 0],
    };
    let fact = calls::Written {
        head: 8,
        muted: true,
        positives: 0,
        negatives: 0,
        entries: [0; 8],
    };
    assert_eq!([told(0), told(1)], [Ok(whole), Ok(fact)]);
    assert_eq!([told(2), told(255), told(256)], [Err(9), Err(9), Err(8)]);
}
