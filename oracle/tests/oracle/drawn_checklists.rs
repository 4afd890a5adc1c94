//! Drawn lists of calls of a checklist: what is complete, read off calls and answers alone; the book; and that the
//! draws reach what they are for.

use oracle::book::Book;
use oracle::calls::{self, Call, Lent};
use oracle::checklist::{complete, missing, Checklist};
use oracle::generate::checklists::Checklists;
use oracle::generate::words::{list, Ending};
use oracle::labels::Labelled;
use oracle::questions::Refusal;
use oracle::random::Random;
use oracle::replay::replay;
use oracle::sound::{sound, sound_rules};
use oracle::standing::Standing;
use oracle::table::RawTable;
use std::collections::{BTreeMap, BTreeSet};

/// One list of openings and calls on files. Answers how often it was complete, and how often no checklist was open.
fn follow_files(random: &mut Random, calls: usize) -> [usize; 2] {
    let mut drawn = Checklists::start();
    let mut standing = Standing::default();
    let mut table = RawTable::empty();
    let mut times = [0, 0];
    for number in 0..calls {
        let call = match number {
            0 => drawn.open(random),
            _ => drawn.file_call(random),
        };
        let accepted = call.make(&mut table, &mut Lent::default()).is_ok();
        standing.note(&call, accepted);
        let none = Refusal::TableUnsound;
        let mut buffer = [0; 60];
        let written = missing(&table, &mut buffer).map(|count| buffer[..count as usize].to_vec());
        assert_eq!(written, standing.missing().ok_or(none), "{call:?}");
        let told = complete(&table);
        assert_eq!(told, standing.complete().ok_or(none), "{call:?}");
        times[0] += usize::from(told == Ok(true));
        times[1] += usize::from(told == Err(none));
    }
    times
}

#[test]
fn complete_is_in_exactly_if_every_file_was_sent_and_no_skip_stands() {
    let mut random = Random::seeded(301);
    let (mut times, mut closed) = (0, 0);
    for _ in 0..150 {
        let [complete, none] = follow_files(&mut random, 40);
        times += complete;
        closed += none;
    }
    assert!((500..5_000).contains(&times), "{times}");
    assert!((50..1_000).contains(&closed), "{closed}");
    let long: usize = (0..6).map(|_| follow_files(&mut random, 400)[0]).sum();
    assert!(long > 0);
}

/// How often each call of a checklist came to each end; 0 stands for an accepted one.
type Ends = BTreeMap<(&'static str, u32), usize>;

/// Makes drawn calls on the table and on the book: the same answers, the same rules.
fn follow_all(random: &mut Random, calls: usize, ends: &mut Ends) {
    let mut drawn = Checklists::start();
    let (mut table, mut book) = (RawTable::empty(), Book::empty());
    for _ in 0..calls {
        let call = drawn.call(random);
        let mut lent = Lent {
            numbers: vec![0; random.below(8)],
            bytes: vec![0; 12 * 512],
        };
        let answer = call.make(&mut table, &mut lent).map_err(Refusal::number);
        if let Some(expected) = book.make(&call) {
            assert_eq!(answer, expected, "{call:?} in {book:?}");
        }
        let end = (call.name(), answer.err().unwrap_or(0));
        *ends.entry(end).or_default() += 1;
    }
    assert!(sound(&table));
    assert_eq!(sound_rules(&table).as_ref(), Some(book.pages()));
}

#[test]
fn calls_answer_as_the_book_does_and_meet_every_refusal() {
    let mut random = Random::seeded(302);
    let mut ends = Ends::new();
    for _ in 0..80 {
        follow_all(&mut random, 120, &mut ends);
    }
    let files = ["file sent", "file skipped", "skip withdrawn"];
    let of_files = files.map(|name| [0, 15, 20, 22].map(|end| (name, end)));
    let lists = [("missing", 0), ("missing", 11), ("missing", 15)];
    let others = [("complete", 0), ("complete", 15), ("open", 0), ("open", 21)];
    for end in of_files.iter().flatten().chain(&lists).chain(&others) {
        assert!(ends.get(end).is_some_and(|&n| n >= 5), "{end:?}: {ends:?}");
    }
}

#[test]
fn checklists_are_completed_broken_and_mended() {
    let mut random = Random::seeded(303);
    let (mut completed, mut broken, mut mended, mut long) = (0, 0, 0, 0);
    for _ in 0..60 {
        let mut drawn = Checklists::start();
        let mut book = Book::empty();
        let mut was = None;
        for _ in 0..200 {
            let call = drawn.change(&mut random);
            let _ = book.make(&call);
            let now = Checklist::of(book.pages());
            let opened = matches!(call, Call::Open { .. });
            broken += usize::from(was.is_some() && now.is_none());
            mended += usize::from(was.is_none() && now.is_some() && !opened);
            if let Some(checklist) = now.as_ref().filter(|list| list.missing().is_empty()) {
                let labelled = Labelled::of(book.pages().clone());
                assert!(labelled.is_in(3 * checklist.files()));
                completed += 1;
                long += usize::from(checklist.files() > 50);
            }
            was = now;
        }
    }
    let seen = [completed, broken, mended, long];
    assert!(completed > 800 && broken > 150 && mended > 80, "{seen:?}");
    assert!(long > 0, "{seen:?}");
}

/// The place of each call of a list and its kind, and the place and kind that end it, if one stands there.
fn kinds(words: &[u32]) -> (Vec<u32>, Option<(u32, usize)>) {
    let (mut met, mut rest) = (Vec::new(), words);
    while let Some(&kind) = rest.first() {
        let length = match (kind, rest) {
            (0 | 3..=6, _) => 2,
            (2 | 8, _) => 3,
            (1, [_, _, p, n, ..]) => 4 + *p as usize + *n as usize,
            (7, [_, _, _, p, n, ..]) => 5 + *p as usize + *n as usize,
            _ => return (met, Some((kind, rest.len()))),
        };
        if rest.len() < length {
            return (met, Some((kind, rest.len())));
        }
        met.push(kind);
        rest = &rest[length..];
    }
    (met, None)
}

#[test]
fn lists_of_numbers_have_every_kind_some_cut_and_some_that_is_none() {
    let mut random = Random::seeded(304);
    let mut met: BTreeMap<u32, usize> = BTreeMap::new();
    let mut ends: BTreeSet<(u32, usize)> = BTreeSet::new();
    for ending in [Ending::Whole, Ending::Cut, Ending::Changed, Ending::Noise] {
        for _ in 0..300 {
            let (calls, end) = kinds(&list(&mut random, ending).words);
            calls
                .iter()
                .for_each(|&kind| *met.entry(kind).or_default() += 1);
            ends.extend(end);
        }
    }
    for kind in 0..=8 {
        assert!(met.get(&kind).is_some_and(|&n| n > 100), "{kind}: {met:?}");
    }
    for kind in 3..=8 {
        assert!(
            ends.contains(&(kind, 1)),
            "{kind} without its number: {ends:?}"
        );
    }
    for words in 2..=6 {
        assert!(ends.contains(&(7, words)), "7 and {words}: {ends:?}");
    }
    assert!(ends.contains(&(8, 2)), "8 and a slot: {ends:?}");
    assert!(ends.iter().any(|&(kind, words)| kind == 9 && words > 1));
}

#[test]
fn lists_of_numbers_meet_every_refusal_of_a_checklist() {
    let mut random = Random::seeded(305);
    let mut answers: BTreeMap<u32, usize> = BTreeMap::new();
    for _ in 0..200 {
        let drawn = list(&mut random, Ending::Whole);
        for answer in replay(&drawn.words, &drawn.files, 400).0 {
            *answers.entry(answer).or_default() += 1;
        }
    }
    for number in [0, 15, 20, 21, 22] {
        let count = answers.get(&(65_536 + number)).copied().unwrap_or(0);
        assert!(count > 3, "{number}: {answers:?}");
    }
}

#[test]
fn the_label_call_says_what_complete_says() {
    let mut random = Random::seeded(306);
    let mut drawn = Checklists::start();
    let mut table = RawTable::empty();
    for _ in 0..300 {
        let call = drawn.call(&mut random);
        let _ = call.make(&mut table, &mut Lent::default());
        if let Ok(told) = complete(&table) {
            let list = Checklist::of(&sound_rules(&table).unwrap()).unwrap();
            let label = calls::label(&table, 3 * list.files()).unwrap();
            assert_eq!(told, matches!(label, oracle::labels::Label::In { .. }));
        }
    }
}
