//! Random lists of all calls, most of them on a checklist, each with the table that the last handed back; between them
//! calls on damaged tables. And lists of openings and calls on files alone, after each of which what is missing and
//! whether all is complete are also read off the calls and answers.

use crate::both;
use compare::boundary::from_slow;
use oracle::calls::Call;
use oracle::generate::again::pages_of;
use oracle::generate::checklists::Checklists;
use oracle::generate::damage::{damaged, FIELDS};
use oracle::generate::mixed_table;
use oracle::generate::muting_kinds::{self, Kind, Met};
use oracle::random::Random;
use oracle::standing::Standing;
use oracle::table::RawTable;
use std::collections::BTreeMap;
use yeqontur::raw;

/// How many differences are shown; the rest are counted.
const SHOWN: usize = 10;

/// From so many calls on, each call of `BOTH_ENDS` must be accepted so often, and refused as well, and each kind of
/// `MUTED` must be met so often.
const MANY: usize = 100_000;
const OFTEN: usize = 20;

/// The calls that change a table, save it or speak of a checklist. An opening may be rare.
const BOTH_ENDS: [&str; 11] = [
    "add",
    "remove",
    "replace",
    "mute",
    "save",
    "load",
    "file sent",
    "file skipped",
    "skip withdrawn",
    "missing",
    "complete",
];

/// What calls meet of muted rules in these lists.
const MUTED: [Met; 3] = [Met::Checklist, Met::Saved, Met::Loaded];

/// An entry that no list of files has, to see which entries were written.
const UNWRITTEN: u32 = 1_000_000;

/// How often a call was made, and accepted.
#[derive(Clone, Copy, Default)]
struct Times {
    made: usize,
    accepted: usize,
}

/// What was seen so far.
#[derive(Default)]
struct Seen {
    seed: u64,
    calls: BTreeMap<&'static str, Times>,
    made: usize,
    failed: usize,
    mutings: muting_kinds::Seen,
    /// How often whether all is complete was read off the calls and answers, how often it was, and how often there was
    /// no checklist, since the last opening was refused.
    read: usize,
    complete: usize,
    closed: usize,
}

impl Seen {
    fn fail(&mut self, difference: &str) {
        if self.failed < SHOWN {
            println!("call {} of seed {}: {difference}", self.made, self.seed);
        }
        self.failed += 1;
    }

    /// Makes the call on both sides and counts it: the number of its refusal, 0 where it was accepted, or `None` where
    /// the sides differ.
    fn make(&mut self, call: &Call, table: &mut RawTable, random: &mut Random) -> Option<u32> {
        let told = both::made(call, table, random);
        let times = self.calls.entry(call.name()).or_default();
        times.made += 1;
        self.made += 1;
        match told {
            Ok(refused) => {
                times.accepted += usize::from(refused == 0);
                Some(refused)
            }
            Err(difference) => {
                self.fail(&difference);
                None
            }
        }
    }

    /// Does the library say of the table what the calls and answers say, or 15 where they say that there is no
    /// checklist? Counts the question.
    fn read_off(&mut self, standing: &Standing, table: &RawTable) -> bool {
        let table = from_slow(table);
        let complete = standing.complete();
        let number = if complete.is_none() { 15 } else { 0 };
        let mut buffer = [UNWRITTEN; 61];
        let written = raw::checklist_missing(&table, &mut buffer);
        let (listed, rest) = buffer.split_at(written.count.min(60));
        let told = raw::checklist_complete(&table);
        self.read += 1;
        self.complete += usize::from(complete == Some(true));
        self.closed += usize::from(complete.is_none());
        (written.refused, told.refused) == (number, number)
            && told.complete == u32::from(complete == Some(true))
            && listed == standing.missing().unwrap_or_default()
            && rest.iter().all(|&entry| entry == UNWRITTEN)
    }

    /// Was each call met often enough, was anything ever complete, was an opening refused among calls on files, did
    /// checklists meet 15 for their muted rules alone, and were muted rules saved and loaded?
    fn is_enough(&self) -> bool {
        let often = |&name: &&str| {
            let times = self.calls.get(name).copied().unwrap_or_default();
            times.accepted >= OFTEN && times.made - times.accepted >= OFTEN
        };
        let muted = |&met: &Met| self.mutings.times(Kind::Met(met)) >= OFTEN;
        let enough = self.closed > 0 && MUTED.iter().all(muted) && BOTH_ENDS.iter().all(often);
        self.complete > 0 && (self.made < MANY || enough)
    }

    fn print(&self) {
        let shown = self.calls.iter().map(|(name, times)| {
            let Times { made, accepted } = times;
            format!("{name} {accepted} of {made}")
        });
        println!("{} calls made", self.made);
        println!("accepted: {}", shown.collect::<Vec<_>>().join(", "));
        println!("{}", self.mutings);
        println!(
            "complete, read off calls and answers: {} of {} times; no checklist: {}",
            self.complete, self.read, self.closed
        );
    }
}

/// A table to start from: the empty one for the most part, else of any kind, sound or not.
fn start(random: &mut Random) -> RawTable {
    if random.percent(10) {
        mixed_table(random)
    } else {
        RawTable::empty()
    }
}

/// A list of all calls. Now and then the call is also made on the table damaged in one field. Ends where the sides
/// differ.
fn all_calls(random: &mut Random, seen: &mut Seen) -> Option<()> {
    let mut table = start(random);
    let mut drawn = Checklists::start();
    if random.percent(85) {
        seen.make(&drawn.open(random), &mut table, random)?;
    }
    for _ in 0..random.between(10, 60 + 3 * drawn.files() as usize) {
        let call = drawn.call(random);
        if random.percent(4) {
            let field = *random.pick(&FIELDS);
            let mut other = damaged(random, &table, field);
            seen.make(&call, &mut other, random)?;
        }
        let before = pages_of(&table);
        let refused = seen.make(&call, &mut table, random)?;
        seen.mutings.note(&before, &call, refused);
    }
    Some(())
}

/// A list of an opening, calls on files, and now and then another opening, refused or not, each on the table that the
/// last handed back. Ends where something differs.
fn files_alone(random: &mut Random, seen: &mut Seen) -> Option<()> {
    let mut table = RawTable::empty();
    let mut drawn = Checklists::start();
    let mut standing = Standing::default();
    let mut call = drawn.open(random);
    for _ in 0..random.between(10, 40 + 4 * drawn.files() as usize) {
        let refused = seen.make(&call, &mut table, random)?;
        standing.note(&call, refused == 0);
        if !seen.read_off(&standing, &table) {
            seen.fail(&format!("{call:?}: told otherwise than {standing:?}"));
            return None;
        }
        call = drawn.file_call(random);
    }
    Some(())
}

/// Makes `count` calls or some more on both sides. Answers how many differ; calls met too rarely count as one.
pub fn compare(seed: u64, count: usize) -> usize {
    let mut random = Random::seeded(seed);
    let mut seen = Seen {
        seed,
        ..Seen::default()
    };
    while seen.made < count {
        // What differs is counted; the next list starts anew.
        let _ = if random.percent(70) {
            all_calls(&mut random, &mut seen)
        } else {
            files_alone(&mut random, &mut seen)
        };
    }
    seen.print();
    if !seen.is_enough() {
        println!("too rare: an end of a call, a refused opening, muted rules met, or a complete checklist");
        seen.failed += 1;
    }
    println!(
        "calls on checklists compared with the slow engine: {} passed, {} failed",
        seen.made + 1 - seen.failed,
        seen.failed
    );
    seen.failed
}
