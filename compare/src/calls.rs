//! Random sequences of all calls but a checklist's, with random buffers and damaged tables. Lists come in any order,
//! and rules of the table again in another one. A load goes on with what it hands back: the table of a file, or refused
//! the empty one. What replacements and mutings came to is counted, and what other calls met of muted rules: each kind
//! must come up.

use crate::both;
use oracle::calls::Call;
use oracle::generate::again::pages_of;
use oracle::generate::muting_kinds::{self, BY_RULES};
use oracle::generate::replacement_kinds;
use oracle::generate::{self, calls::Calls};
use oracle::random::Random;
use oracle::rules::Program;
use oracle::table::RawTable;

/// How many differences are shown; the rest are counted.
const SHOWN: usize = 10;

/// From so many calls on, replacements must come so often to each of their ends, and mutings, which have more of them,
/// so often.
const MANY: usize = 100_000;
const OFTEN: usize = 100;
const MUTINGS_OFTEN: usize = 50;

/// A table to start a sequence from: empty for the most part, else of any kind, sound or not.
fn start(random: &mut Random) -> RawTable {
    match random.below(4) {
        0 => generate::mixed_table(random),
        1 => generate::sound_table(random),
        _ => RawTable::empty(),
    }
}

/// What was made so far.
#[derive(Default)]
struct Run {
    seed: u64,
    made: usize,
    failed: usize,
    replacements: replacement_kinds::Seen,
    mutings: muting_kinds::Seen,
}

/// What the slots hold before the call, if it may be counted: a replacement, a muting, a load, or any call on a table
/// with a muted rule.
fn counted(call: &Call, table: &RawTable) -> Option<Program> {
    let by_itself = matches!(
        call,
        Call::Replace { .. } | Call::Mute { .. } | Call::Load { .. }
    );
    (by_itself || table.has_muted()).then(|| pages_of(table))
}

impl Run {
    /// Makes the call on both sides and counts it; `None` where the sides differ.
    fn make(&mut self, call: &Call, table: &mut RawTable, random: &mut Random) -> Option<()> {
        self.made += 1;
        let before = counted(call, table);
        match both::made(call, table, random) {
            Ok(refused) => {
                if let Some(pages) = &before {
                    self.replacements.note(pages, call, refused);
                    self.mutings.note(pages, call, refused);
                }
                Some(())
            }
            Err(difference) => {
                if self.failed < SHOWN {
                    println!("call {} of seed {}: {difference}", self.made, self.seed);
                }
                self.failed += 1;
                None
            }
        }
    }

    /// Did replacements and mutings come often enough to each of their ends, and did other calls meet muted rules?
    fn is_enough(&self) -> bool {
        let refusals = [&replacement_kinds::REFUSALS[..], &[15]].concat();
        let mutings = [&muting_kinds::REFUSALS[..], &[15]].concat();
        self.replacements.is_enough(&refusals, OFTEN)
            && self.mutings.is_enough(&mutings, &BY_RULES, MUTINGS_OFTEN)
    }

    /// At most `count` calls, each on the table that the last handed back. Ends where the sides differ.
    fn sequence(&mut self, random: &mut Random, count: usize) -> Option<()> {
        let mut table = start(random);
        let atoms = *random.pick(&[4, 8, 20, 60, 256]);
        let mut calls = Calls::on(&table, atoms, 2 * atoms);
        for _ in 0..random.between(1, 120).min(count) {
            let call = calls.call(random);
            self.make(&call, &mut table, random)?;
        }
        Some(())
    }
}

/// Makes `count` calls on both sides; table, answer and every buffer entry are compared after each. Answers how many
/// differ; replacements or mutings that came too rarely to one of their ends count as one.
pub fn compare(seed: u64, count: usize) -> usize {
    let mut random = Random::seeded(seed);
    let mut run = Run {
        seed,
        ..Run::default()
    };
    while run.made < count {
        // What differs is counted; the next sequence starts anew.
        let _ = run.sequence(&mut random, count - run.made);
    }
    let passed = run.made - run.failed;
    println!("{}\n{}", run.replacements, run.mutings);
    if count >= MANY && !run.is_enough() {
        println!(
            "too rare: an end of replacements or mutings, or muted rules that other calls met"
        );
        run.failed += 1;
    }
    println!(
        "calls compared with the slow engine: {passed} passed, {} failed",
        run.failed
    );
    run.failed
}
