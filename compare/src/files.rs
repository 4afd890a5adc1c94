//! Random files loaded, and random tables saved, on both sides: every answer, table and byte of a lent buffer.

use compare::boundary::from_slow;
use oracle::calls;
use oracle::generate::files::{file, Kind, KINDS};
use oracle::generate::mixed_table;
use oracle::questions::Refusal;
use oracle::random::Random;
use oracle::table::RawTable;
use std::collections::BTreeMap;
use std::fmt::Debug;
use yeqontur::raw;

/// How many differences are shown; the rest are counted.
const SHOWN: usize = 10;

/// From so many files on, each refusal must be met so often.
const MANY: usize = 20_000;
const OFTEN: usize = 500;

/// How often each refusal was met; 0 stands for an accepted call. Whether the table that was loaded or was to be saved
/// has a muted rule goes with it.
type Met = BTreeMap<(u32, bool), usize>;

/// Loads on both sides: what was met, or what differs. An accepted file is what saving its table writes.
fn loaded(bytes: &[u8]) -> Result<(u32, bool), &'static str> {
    let (answer, table) = calls::load(bytes);
    let expected = answer.err().map_or(0, Refusal::number);
    let told = raw::load(bytes);
    if told.refused != expected {
        return Err("load: another answer");
    }
    if told.table.as_bytes() != from_slow(&table).as_bytes() {
        return Err("load: another table");
    }
    if expected == 0 {
        let mut written = vec![0; bytes.len()];
        let again = raw::save(&told.table, &mut written);
        if (again.refused, again.count) != (0, bytes.len()) || written != bytes {
            return Err("save: another file than the one loaded");
        }
    }
    Ok((expected, table.has_muted()))
}

/// Random bytes to be written over: none, one too few, just enough, more, or any number.
fn buffer(random: &mut Random, needed: usize) -> Vec<u8> {
    let length = match random.below(6) {
        0 => 0,
        1 => needed - 1,
        2 => needed,
        3 => needed + random.between(1, 600),
        4 => 12 * 512,
        _ => random.below(13 * 512),
    };
    (0..length).map(|_| random.word() as u8).collect()
}

/// Saves on both sides: what was met, or what differs.
fn saved(random: &mut Random, table: &RawTable) -> Result<(u32, bool), &'static str> {
    let rules = table.rules.iter().filter(|rule| rule.state != 0).count();
    let mut expected = buffer(random, 512 * rules.div_ceil(22).max(1));
    let mut written = expected.clone();
    let (number, count) = match calls::save(table, &mut expected) {
        Ok(count) => (0, count),
        Err(Refusal::BufferTooShort { needed }) => (11, needed),
        Err(refusal) => (refusal.number(), 0),
    };
    let told = raw::save(&from_slow(table), &mut written);
    if (told.refused, told.count) != (number, count as usize) {
        return Err("save: another answer");
    }
    if written != expected {
        return Err("save: other bytes");
    }
    Ok((number, table.has_muted()))
}

/// What was seen so far.
#[derive(Default)]
struct Seen {
    failed: usize,
    kinds: BTreeMap<Kind, usize>,
    loads: Met,
    saves: Met,
}

impl Seen {
    /// Counts what was met, or shows what differs.
    fn note(
        &mut self,
        what: &str,
        met: Result<(u32, bool), &'static str>,
        counts: fn(&mut Seen) -> &mut Met,
    ) {
        match met {
            Ok(met) => *counts(self).entry(met).or_default() += 1,
            Err(difference) => {
                if self.failed < SHOWN {
                    println!("{what}: {difference}");
                }
                self.failed += 1;
            }
        }
    }

    /// At least half of the files were damaged, and of many each refusal was met often; tables with a muted rule and
    /// without were loaded, saved and refused often.
    fn is_enough(&self, count: usize) -> bool {
        let damaged = self.kinds.iter().filter(|(kind, _)| kind.is_damaged());
        let damaged: usize = damaged.map(|(_, files)| files).sum();
        let often = |met: &Met, numbers: &[u32], muted: &[bool]| {
            let times = |number, muted| met.get(&(number, muted)).copied().unwrap_or(0);
            let enough = |&number: &u32| muted.iter().all(|&muted| times(number, muted) >= OFTEN);
            numbers.iter().all(enough)
        };
        // A refused load hands back the empty table.
        let all_often = often(&self.loads, &[0], &[false, true])
            && often(&self.loads, &[16, 17, 18, 19], &[false])
            && often(&self.saves, &[0, 11, 15], &[false, true]);
        2 * damaged >= count && (count < MANY || all_often)
    }

    fn print(&self) {
        println!("files of each kind: {}", listed(&self.kinds));
        println!("by refusal, 0 if accepted, and whether a rule is muted:");
        println!("loads: {}", listed(&self.loads));
        println!("saves: {}", listed(&self.saves));
    }
}

/// Each key with its count.
fn listed<K: Debug>(counts: &BTreeMap<K, usize>) -> String {
    let shown = counts.iter().map(|(key, count)| format!("{key:?} {count}"));
    shown.collect::<Vec<_>>().join(", ")
}

/// Loads `count` files and saves `count` tables on both sides. Answers how many differ; too few of a kind count as one.
pub fn compare(seed: u64, count: usize) -> usize {
    let mut random = Random::seeded(seed);
    let mut seen = Seen::default();
    for (number, &kind) in (0..count).zip(KINDS.iter().rev().cycle()) {
        let bytes = file(&mut random, kind);
        let what = format!("file {number} of seed {seed}, {kind:?}");
        *seen.kinds.entry(kind).or_default() += 1;
        seen.note(&what, loaded(&bytes), |seen| &mut seen.loads);
        let table = mixed_table(&mut random);
        let what = format!("table {number} of seed {seed}");
        let met = saved(&mut random, &table);
        seen.note(&what, met, |seen| &mut seen.saves);
    }
    seen.print();
    if !seen.is_enough(count) {
        println!("too few damaged files, or a refusal too rarely met");
        seen.failed += 1;
    }
    println!(
        "files and tables compared with the slow engine: {} passed, {} failed",
        2 * count + 1 - seen.failed,
        seen.failed
    );
    seen.failed
}
