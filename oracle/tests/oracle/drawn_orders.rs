//! The generators name lists in any order, and rules again in another one; some tables have lists that do not ascend.

use oracle::book::Book;
use oracle::calls::{Call, Lent};
use oracle::command::{read_line, Command, Line};
use oracle::generate::calls::Calls;
use oracle::generate::sheets::{sheet, Flavour};
use oracle::generate::words::{list, Ending};
use oracle::generate::{mixed_table, sound_table};
use oracle::questions::Refusal;
use oracle::random::Random;
use oracle::replay::replay;
use oracle::rules::held;
use oracle::table::RawTable;
use std::collections::BTreeSet;

fn ascends<T: PartialOrd>(list: &[T]) -> bool {
    list.windows(2).all(|pair| pair[0] < pair[1])
}

/// How often additions came to each of these ends.
#[derive(Default, Debug)]
struct Orders {
    /// The lists were not ascending, and the rule was taken.
    taken: usize,
    /// The rule is held, and its lists were named in another order.
    same: usize,
    /// The lists have the atoms of a held rule, but one stands in the other list; taken.
    across: usize,
    /// The lists have the atoms of a held rule, and one twice.
    repeated: usize,
}

impl Orders {
    /// Adds the rule to the book and counts what came of it.
    fn add(&mut self, book: &mut Book, head: u32, positives: &[u32], negatives: &[u32]) {
        let unordered = !ascends(positives) || !ascends(negatives);
        let atoms: BTreeSet<u32> = positives.iter().chain(negatives).copied().collect();
        let near = held(book.pages())
            .any(|(_, rule)| rule.head == head && rule.entries().collect::<BTreeSet<_>>() == atoms);
        match book.add(head, positives, negatives) {
            Ok(_) => {
                self.taken += usize::from(unordered);
                self.across += usize::from(near);
            }
            Err(5) => self.same += usize::from(unordered),
            Err(4) => self.repeated += usize::from(near),
            Err(_) => {}
        }
    }

    fn assert_each_more_than(&self, least: usize) {
        for count in [self.taken, self.same, self.across, self.repeated] {
            assert!(count > least, "{self:?}");
        }
    }
}

#[test]
fn additions_come_in_any_order_and_again_in_another() {
    let mut random = Random::seeded(106);
    let mut orders = Orders::default();
    for round in 0..200 {
        let mut book = Book::empty();
        let mut calls = Calls::on(&RawTable::empty(), [4, 8, 20, 60, 256][round % 5], 20);
        for _ in 0..100 {
            match calls.call(&mut random) {
                Call::Add {
                    head,
                    positives,
                    negatives,
                } => orders.add(&mut book, head, &positives, &negatives),
                other => drop(book.make(&other)),
            }
        }
    }
    orders.assert_each_more_than(30);
}

#[test]
fn the_rules_of_a_table_are_named_again_in_another_order() {
    let mut random = Random::seeded(107);
    let mut same = 0;
    for _ in 0..1_600 {
        let mut table = sound_table(&mut random);
        let call = Calls::on(&table, 256, 256).addition(&mut random);
        if call.make(&mut table, &mut Lent::default()) == Err(Refusal::SameRule) {
            let Call::Add {
                positives,
                negatives,
                ..
            } = call
            else {
                unreachable!("an addition")
            };
            same += usize::from(!ascends(&positives) || !ascends(&negatives));
        }
    }
    assert!(same > 20, "{same}");
}

#[test]
fn lists_of_numbers_and_sheets_name_rules_again_in_another_order() {
    let mut random = Random::seeded(108);
    let lists = (0..200).map(|_| list(&mut random, Ending::Whole));
    let answers: Vec<u32> = lists
        .flat_map(|list| replay(&list.words, &list.files, 400).0)
        .collect();
    let same = answers.iter().filter(|&&answer| answer == 65_536 + 5);
    assert!(same.count() > 500);
    let mut orders = Orders::default();
    for round in 0..90 {
        let flavour = [Flavour::Story, Flavour::Mixed, Flavour::Crowded][round % 3];
        let mut book = Book::empty();
        for line in sheet(&mut random, flavour).split(|&byte| byte == b'\n') {
            match read_line(line) {
                Line::Command(Command::Change(Call::Add {
                    head,
                    positives,
                    negatives,
                })) => orders.add(&mut book, head, &positives, &negatives),
                Line::Command(other) => drop(other.change().map(|call| book.make(&call))),
                _ => {}
            }
        }
    }
    orders.assert_each_more_than(100);
}

#[test]
fn some_tables_have_a_list_that_does_not_ascend() {
    let mut random = Random::seeded(109);
    let mut unordered = 0;
    for _ in 0..1_000 {
        let table = mixed_table(&mut random);
        unordered += usize::from(table.rules.iter().any(|raw| {
            let end = usize::from(raw.positives).min(raw.entries.len());
            let (positives, rest) = raw.entries.split_at(end);
            let count = usize::from(raw.negatives).min(rest.len());
            !ascends(positives) || !ascends(&rest[..count])
        }));
    }
    assert!(unordered > 80, "{unordered}");
}
