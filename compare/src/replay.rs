//! Lists of calls written as numbers, with the files that they load: what the proved `replay` answers and leaves,
//! against the slow engine's book. What replacements and mutings came to is counted, and what other calls met of muted
//! rules: each kind must come up.

use compare::boundary::{self, from_slow};
use oracle::book::Book;
use oracle::generate::muting_kinds::{self, BY_CHANGES};
use oracle::generate::replacement_kinds;
use oracle::generate::table_of;
use oracle::generate::words::{list, List, ENDINGS};
use oracle::random::Random;
use oracle::replay;

/// Numbers that no answer is, so that an entry that was not written is seen.
const UNWRITTEN: u32 = 1_000_000;

/// From so many lists on, replacements must come so often to each of their ends, and mutings, which have more of them,
/// so often.
const MANY: usize = 2_000;
const OFTEN: usize = 100;
const MUTINGS_OFTEN: usize = 10;

/// What came of replacements and mutings.
#[derive(Default)]
struct Seen {
    replacements: replacement_kinds::Seen,
    mutings: muting_kinds::Seen,
}

impl Seen {
    /// Counts the first so many calls of a list.
    fn note(&mut self, list: &List, made: usize) {
        let mut book = Book::empty();
        for call in replay::calls(&list.words, &list.files).iter().take(made) {
            self.replacements.follow(&mut book.clone(), call);
            self.mutings.follow(&mut book, call);
        }
    }

    fn is_enough(&self) -> bool {
        let mutings = &self.mutings;
        self.replacements
            .is_enough(&replacement_kinds::REFUSALS, OFTEN)
            && mutings.is_enough(&muting_kinds::REFUSALS, &BY_CHANGES, MUTINGS_OFTEN)
    }
}

/// One list with room for so many answers: how many calls were made, or what differs.
fn made(list: &List, room: usize) -> Result<usize, &'static str> {
    let (expected, book) = replay::replay(&list.words, &list.files, room);
    let mut answers = vec![UNWRITTEN; room];
    let told = boundary::replay(&list.words, &list.files, &mut answers);
    if told.count != expected.len() {
        return Err("another count of calls");
    }
    let (written, stayed) = answers.split_at(told.count);
    if written != expected || stayed.iter().any(|&answer| answer != UNWRITTEN) {
        return Err("other answers");
    }
    if told.table != from_slow(&table_of(book.pages().clone())) {
        return Err("other rules or labels");
    }
    Ok(told.count)
}

/// Replays `count` lists on both sides. Answers how many differ; replacements or mutings that came too rarely to one of
/// their ends count as one.
pub fn compare(seed: u64, count: usize) -> usize {
    let mut random = Random::seeded(seed);
    let (mut failed, mut calls) = (0, 0);
    let mut seen = Seen::default();
    for (number, &ending) in (0..count).zip(ENDINGS.iter().cycle()) {
        let list = list(&mut random, ending);
        let room = *random.pick(&[0, 1, 10, 50, 400, 400, 400, 400]);
        match made(&list, room) {
            Ok(made) => {
                calls += made;
                seen.note(&list, made);
            }
            Err(difference) => {
                println!("list {number} of seed {seed}, {ending:?}: {difference}");
                failed += 1;
            }
        }
    }
    let passed = count - failed;
    println!("{}\n{}", seen.replacements, seen.mutings);
    if count >= MANY && !seen.is_enough() {
        println!("replacements or mutings came too rarely to one of their ends");
        failed += 1;
    }
    println!(
        "lists of {calls} calls replayed beside the slow engine's book: {passed} passed, {failed} failed"
    );
    failed
}
