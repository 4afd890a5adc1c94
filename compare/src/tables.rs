//! Tables of every kind: the proved engine's verdict, labels and rounds against the slow engine's.

use compare::boundary::{self, from_slow, Rounds, LAYERS};
use oracle::atoms::AtomSet;
use oracle::generate;
use oracle::generate::kept_faults::{wrongs, Wrong, WRONGS};
use oracle::labels::{Label, Labelled};
use oracle::limits::ATOMS;
use oracle::random::Random;
use oracle::rounds::rounds;
use oracle::rules::Program;
use oracle::sound;
use oracle::strata::layers;
use oracle::table::{RawTable, MUTED};
use std::collections::BTreeMap;
use std::ops::RangeInclusive;

/// What the slow engine finds of rules that are sound by themselves.
struct Expected {
    labelled: Labelled,
    layers: Vec<u32>,
    rounds: Vec<u32>,
}

impl Expected {
    fn of(program: Program) -> Expected {
        let labelled = Labelled::of(program);
        let layers = layers(&labelled.program);
        let atoms = 0..ATOMS as u32;
        let model: AtomSet = atoms.filter(|&atom| labelled.is_in(atom)).collect();
        let rounds = rounds(&labelled.program, &layers, &model);
        Expected {
            labelled,
            layers,
            rounds,
        }
    }

    /// The rounds of each layer as the proved engine hands them out.
    fn numbers(&self) -> [u16; LAYERS] {
        let mut numbers = [0; LAYERS];
        for (number, &count) in numbers.iter_mut().zip(&self.rounds) {
            *number = count as u16;
        }
        numbers
    }

    /// The least and the most rounds that each layer may have, lowest first: at least one, two where an atom of it is
    /// in, and at most the greatest depth of its in atoms and one.
    fn bounds(&self) -> Vec<RangeInclusive<u32>> {
        let top = *self.layers.iter().max().expect("an atom");
        let mut bounds = vec![1..=1; top as usize + 1];
        for (&layer, label) in self.layers.iter().zip(&self.labelled.labels) {
            if let Label::In { depth, .. } = *label {
                let bound = &mut bounds[layer as usize];
                *bound = 2..=(depth + 1).max(*bound.end());
            }
        }
        bounds
    }
}

/// The rounds of one table, whose rules are refused by that number, or not if it is 0.
fn rounds_differ(told: &Rounds, refused: u32, expected: Option<&Expected>) -> Option<String> {
    if told.refused != refused {
        return Some(format!("rounds: refused {}, not {refused}", told.refused));
    }
    let bounds = expected.map_or(Vec::new(), Expected::bounds);
    for (layer, (&count, bound)) in told.rounds.iter().zip(bounds).enumerate() {
        if !bound.contains(&count.into()) {
            return Some(format!(
                "rounds: {count} of layer {layer}, not in {bound:?}"
            ));
        }
    }
    let numbers = expected.map_or([0; LAYERS], Expected::numbers);
    let layer = (0..LAYERS).find(|&layer| told.rounds[layer] != numbers[layer])?;
    let (count, number) = (told.rounds[layer], numbers[layer]);
    Some(format!("rounds: {count} of layer {layer}, not {number}"))
}

/// The number of the question that the table's rules answer no: 15 or 7; else 0.
fn refusal(raw: &RawTable, expected: Option<&Expected>) -> u32 {
    match expected {
        Some(_) => 0,
        None if sound::fitting_rules(raw).is_some() => 7,
        None => 15,
    }
}

/// One table: the verdict, and the labels and rounds of its rules where they are sound by themselves. Answers what was
/// expected of these rules, or what differs.
fn compared(raw: &RawTable) -> Result<Option<Expected>, String> {
    let table = from_slow(raw);
    let verdict = sound::sound(raw);
    if boundary::sound(&table) != verdict {
        return Err(format!("sound: the slow engine says {verdict}"));
    }
    let told = boundary::labels(&table);
    let expected = sound::sound_rules(raw).map(Expected::of);
    let refused = refusal(raw, expected.as_ref());
    if told.refused != refused {
        return Err(format!("labels: refused {}, not {refused}", told.refused));
    }
    let labelled = |e: &Expected| from_slow(&RawTable::keeping(&e.labelled));
    if told.table != expected.as_ref().map_or(table, labelled) {
        return Err("labels: another table".to_string());
    }
    let difference = rounds_differ(&boundary::rounds(&table), refused, expected.as_ref());
    difference.map_or(Ok(expected), Err)
}

/// From so many tables on, one of five must have a muted rule, and of these one of five must be sound and one not; and
/// one of fifty must have a slot with a state past 2.
const MANY: usize = 1_000;

/// How many tables had a muted rule, and how many of them are sound; how many had a slot with a state past 2.
#[derive(Default)]
struct Muted {
    tables: usize,
    sound: usize,
    no_state: usize,
}

impl Muted {
    fn note(&mut self, raw: &RawTable) {
        if raw.has_muted() {
            self.tables += 1;
            self.sound += usize::from(sound::sound(raw));
        }
        let has_no_state = raw.rules.iter().any(|rule| rule.state > MUTED);
        self.no_state += usize::from(has_no_state);
    }

    fn is_enough(&self, count: usize) -> bool {
        let one_of_five = |part: usize, whole: usize| 5 * part >= whole;
        count < MANY
            || one_of_five(self.tables, count)
                && one_of_five(self.sound, self.tables)
                && one_of_five(self.tables - self.sound, self.tables)
                && 50 * self.no_state >= count
    }
}

/// From `MANY` tables on, each wrong way to keep a depth or a spoiler must come up once in so many tables.
const ONCE_IN: usize = 500;

/// How many tables with sound rules kept what is wrong in each way.
#[derive(Default)]
struct KeptWrong(BTreeMap<Wrong, usize>);

impl KeptWrong {
    fn note(&mut self, raw: &RawTable, labelled: &Labelled) {
        for wrong in wrongs(raw, labelled) {
            *self.0.entry(wrong).or_default() += 1;
        }
    }

    fn is_enough(&self, count: usize) -> bool {
        let times = |wrong| self.0.get(wrong).copied().unwrap_or(0);
        count < MANY || WRONGS.iter().all(|wrong| ONCE_IN * times(wrong) >= count)
    }

    fn shown(&self) -> String {
        let shown = self.0.iter().map(|(wrong, n)| format!("{wrong:?}: {n}"));
        shown.collect::<Vec<_>>().join(", ")
    }
}

/// How far the rounds went of the tables whose rules are not refused.
#[derive(Default)]
struct Reached {
    tables: usize,
    layers: usize,
    most_layers: usize,
    most_rounds: u32,
}

impl Reached {
    fn note(&mut self, rounds: &[u32]) {
        self.tables += 1;
        self.layers += rounds.len();
        self.most_layers = self.most_layers.max(rounds.len());
        let most = rounds.iter().copied().max().unwrap_or(0);
        self.most_rounds = self.most_rounds.max(most);
    }
}

/// Counts what a table showed that was compared.
#[derive(Default)]
struct Seen {
    reached: Reached,
    muted: Muted,
    kept_wrong: KeptWrong,
}

impl Seen {
    fn note(&mut self, raw: &RawTable, expected: &Expected) {
        self.reached.note(&expected.rounds);
        self.kept_wrong.note(raw, &expected.labelled);
    }

    /// Prints the counts. Answers how many kinds of tables came up too rarely.
    fn told(&self, count: usize) -> usize {
        let (reached, muted) = (&self.reached, &self.muted);
        println!(
            "rounds compared: {} layers of {} tables, at most {} layers in a table and {} rounds in a layer",
            reached.layers, reached.tables, reached.most_layers, reached.most_rounds
        );
        println!(
            "tables with a muted rule: {}, of them sound: {}; with a state past 2: {}",
            muted.tables, muted.sound, muted.no_state
        );
        println!("wrong depths and spoilers: {}", self.kept_wrong.shown());
        let mut few = 0;
        if !muted.is_enough(count) {
            println!("too few tables with a muted rule, or with a state past 2");
            few += 1;
        }
        if !self.kept_wrong.is_enough(count) {
            println!("too few tables with a wrong depth or spoiler of some kind");
            few += 1;
        }
        few
    }
}

/// Compares `count` tables. Answers how many differ; too few tables of a kind count as one.
pub fn compare(seed: u64, count: usize) -> usize {
    let mut random = Random::seeded(seed);
    let (mut failed, mut seen) = (0, Seen::default());
    for i in 0..count {
        let raw = generate::mixed_table(&mut random);
        seen.muted.note(&raw);
        match compared(&raw) {
            Ok(expected) => expected.iter().for_each(|e| seen.note(&raw, e)),
            Err(difference) => {
                println!("table {i} of seed {seed}: {difference}");
                failed += 1;
            }
        }
    }
    let passed = count - failed;
    failed += seen.told(count);
    println!("tables compared with the slow engine: {passed} passed, {failed} failed");
    failed
}

#[cfg(test)]
mod tests {
    use super::{rounds_differ, Expected};
    use compare::boundary::{Rounds, LAYERS};
    use oracle::rules::{Page, Rule};

    /// A chain along the slots, above it a layer in which nothing is in, and above that a chain against the slots.
    fn expected() -> Expected {
        let rules = [
            Rule::of(0, &[], &[]),
            Rule::of(1, &[0], &[]),
            Rule::of(2, &[1], &[]),
            Rule::of(3, &[], &[2]),
            Rule::of(5, &[4], &[]),
            Rule::of(4, &[], &[3]),
        ];
        let pages = rules.into_iter().map(Page::unmuted);
        Expected::of(pages.map(Some).collect())
    }

    #[test]
    fn the_bounds_are_those_of_the_request() {
        assert_eq!(expected().rounds, [2, 1, 3]);
        assert_eq!(expected().bounds(), [2..=4, 1..=1, 2..=3]);
    }

    #[test]
    fn every_number_of_rounds_is_compared() {
        let expected = expected();
        let differ =
            |refused, rounds| rounds_differ(&Rounds { refused, rounds }, 0, Some(&expected));
        assert_eq!(differ(0, expected.numbers()), None);
        assert!(differ(7, expected.numbers()).is_some());
        for layer in 0..LAYERS {
            let mut numbers = expected.numbers();
            numbers[layer] += 1;
            assert!(differ(0, numbers).is_some(), "layer {layer}");
        }
    }

    #[test]
    fn a_refusal_has_the_number_of_the_labels_and_no_rounds() {
        let differ = |refused, rounds| rounds_differ(&Rounds { refused, rounds }, 15, None);
        assert_eq!(differ(15, [0; LAYERS]), None);
        assert!(differ(7, [0; LAYERS]).is_some());
        for layer in 0..LAYERS {
            let mut numbers = [0; LAYERS];
            numbers[layer] = 1;
            assert!(differ(15, numbers).is_some(), "layer {layer}");
        }
    }
}
