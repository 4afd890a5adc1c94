//! The small tables T1 to T13 (specification 10.1), on the proved library.

mod common;

use common::{fourth_example, table};
use yeqontur::{Label, Refusal, Table};

const IN: fn(u32, u32) -> Label = |depth, slot| Label::In { depth, slot };

/// The named atoms have these labels, and every other is absent.
fn shows(table: &Table, labels: &[(u32, Label)]) {
    for atom in 0..256 {
        let wanted = labels
            .iter()
            .find(|(a, _)| *a == atom)
            .map_or(Label::Absent, |(_, l)| *l);
        assert_eq!(table.label(atom), Ok(wanted), "atom {atom}");
    }
}

#[test]
fn t1_every_atom_of_the_empty_table_is_absent() {
    shows(&Table::new(), &[]);
}

#[test]
fn t2_a_fact_and_what_follows() {
    shows(
        &table(&[(1, &[], &[]), (2, &[1], &[])]),
        &[(1, IN(1, 0)), (2, IN(2, 1))],
    );
}

#[test]
fn t3_and_t4_two_that_name_each_other_stand_only_on_a_fact() {
    let mut t = table(&[(1, &[2], &[]), (2, &[1], &[])]);
    shows(&t, &[(1, Label::Out), (2, Label::Out)]);
    assert_eq!(t.add(2, &[], &[]), Ok(2));
    shows(&t, &[(1, IN(2, 0)), (2, IN(1, 2))]);
    assert_eq!(t.remove(2), Ok(()));
    shows(&t, &[(1, Label::Out), (2, Label::Out)]);
}

#[test]
fn t5_and_t6_negations() {
    let mut t = table(&[(1, &[], &[2])]);
    shows(&t, &[(1, IN(1, 0)), (2, Label::Out)]);
    assert_eq!(t.add(2, &[], &[]), Ok(1));
    shows(&t, &[(1, Label::Out), (2, IN(1, 1))]);
    let t = table(&[(1, &[], &[2]), (2, &[], &[3])]);
    shows(&t, &[(1, Label::Out), (2, IN(1, 1)), (3, Label::Out)]);
}

#[test]
fn t7_and_t8_the_lowest_slot_at_the_least_depth() {
    let t = table(&[(2, &[], &[]), (3, &[], &[]), (1, &[3], &[]), (1, &[2], &[])]);
    shows(&t, &[(1, IN(2, 2)), (2, IN(1, 0)), (3, IN(1, 1))]);
    let mut t = table(&[(2, &[], &[]), (1, &[2], &[]), (3, &[1], &[])]);
    assert_eq!(t.label(3), Ok(IN(3, 2)));
    assert_eq!(t.add(3, &[], &[]), Ok(3));
    assert_eq!(t.label(3), Ok(IN(1, 3)));
}

#[test]
fn t9_and_t10_loops() {
    let mut t = table(&[(1, &[1], &[])]);
    shows(&t, &[(1, Label::Out)]);
    assert_eq!(t.add(1, &[], &[1]), Err(Refusal::NegativeCycle));
    let mut t = table(&[(1, &[2], &[]), (2, &[], &[3])]);
    let before = t.clone();
    assert_eq!(t.add(3, &[], &[1]), Err(Refusal::NegativeCycle));
    assert_eq!(t, before);
}

#[test]
fn t11_the_report_s_fourth_example() {
    let mut t = fourth_example();
    shows(
        &t,
        &[
            (1, IN(3, 2)),
            (2, Label::Out),
            (3, IN(1, 5)),
            (4, IN(2, 3)),
            (5, Label::Out),
        ],
    );
    assert_eq!(t.add(5, &[], &[]), Ok(6));
    shows(
        &t,
        &[
            (1, IN(2, 0)),
            (2, IN(1, 1)),
            (3, Label::Out),
            (4, Label::Out),
            (5, IN(1, 6)),
        ],
    );
}

#[test]
fn t12_the_limits() {
    let mut t = Table::new();
    assert_eq!(t.add(255, &[], &[]), Ok(0));
    assert_eq!(t.add(256, &[], &[]), Err(Refusal::HeadTooLarge));
    assert_eq!(t.add(0, &[1, 2, 3, 4], &[5, 6, 7, 8]), Ok(1));
    assert_eq!(
        t.add(0, &[1, 2, 3, 4, 9], &[5, 6, 7, 8]),
        Err(Refusal::TooManyEntries)
    );
    assert_eq!(
        t.add(0, &[1, 2, 3, 4, 256], &[5, 6, 7, 8]),
        Err(Refusal::TooManyEntries)
    );
    let mut t = Table::new();
    for atom in 0..256 {
        assert_eq!(t.add(atom, &[], &[]), Ok(atom));
    }
    assert_eq!(t.add(0, &[1], &[]), Err(Refusal::TableFull));
    assert_eq!(t.add(0, &[], &[]), Err(Refusal::SameRule));
    assert_eq!(t.add(1, &[], &[1]), Err(Refusal::TableFull));
}

#[test]
fn t13_repercussions_of_two_that_name_each_other() {
    assert_eq!(
        table(&[(1, &[2], &[]), (2, &[1], &[])]).repercussions(1),
        Ok(vec![1, 2])
    );
}
