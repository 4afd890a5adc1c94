//! Checklists: complete exactly if every file was sent and no skip stands, whatever calls come; and what is no
//! checklist is refused.

mod common;

use common::{word, Place, Random};
use std::collections::BTreeSet;
use yeqontur::raw::{self, Accepted};
use yeqontur::{Atoms, Because, Checklist, FileState, Refusal, Side, Stop, Table, Why};

fn opened(files: u32) -> Checklist {
    Checklist::open(files).expect("1 to 60 files")
}

/// A checklist with these files sent and these skipped.
fn marked(files: u32, sent: &[u32], skipped: &[u32]) -> Checklist {
    let mut checklist = opened(files);
    for &file in sent {
        assert_eq!(checklist.sent(file), Ok(()));
    }
    for &file in skipped {
        assert_eq!(checklist.skipped(file), Ok(()));
    }
    checklist
}

fn is_checklist(table: &Table) -> bool {
    Checklist::try_from(table.clone()) != Err(Refusal::TableUnsound)
}

#[test]
fn opening_is_for_1_to_60_files() {
    for files in 1..=60 {
        let checklist = opened(files);
        assert_eq!(checklist.files(), files);
        assert!(!checklist.complete());
        assert!(checklist.missing().into_iter().eq(1..=files));
    }
    for files in [0, 61, 62, 256, 257, 65_537, u32::MAX] {
        assert_eq!(Checklist::open(files), Err(Refusal::WrongFileCount));
        let told = raw::checklist_open(files);
        assert_eq!(told.refused, 21);
        assert_eq!(told.table, raw::empty());
    }
}

#[test]
fn the_rules_of_an_opening_are_those_of_the_request() {
    let checklist = opened(60);
    let mut rules = checklist.table().rules();
    assert_eq!(
        rules.next().map(|rule| rule.to_string()),
        Some("0 <".to_string())
    );
    for (file, rule) in (1..=60).zip(&mut rules) {
        let Atoms {
            sent,
            skipped,
            good,
            ..
        } = checklist.atoms(file).expect("a file");
        assert_eq!(
            (sent, skipped, good),
            (3 * file - 2, 3 * file - 1, 3 * file)
        );
        assert_eq!((rule.slot, rule.head), (file, good));
        assert_eq!(rule.positives, [good - 3, sent]);
        assert_eq!(rule.negatives, [skipped]);
    }
    assert_eq!(rules.next(), None);
}

/// The marks, without rules.
struct Model {
    files: u32,
    sent: BTreeSet<u32>,
    skipped: BTreeSet<u32>,
}

impl Model {
    /// What the call has to answer, after it was made on the marks.
    fn change(&mut self, call: u32, file: u32) -> Result<(), Refusal> {
        if file == 0 || file > self.files {
            return Err(Refusal::FileNotListed);
        }
        let changed = match call {
            0 => self.sent.insert(file),
            1 => self.skipped.insert(file),
            _ => self.skipped.remove(&file),
        };
        changed.then_some(()).ok_or(Refusal::MarkUnchanged)
    }

    fn state(&self, file: u32) -> FileState {
        match (self.sent.contains(&file), self.skipped.contains(&file)) {
            (_, true) => FileState::Skipped,
            (true, _) => FileState::Sent,
            _ => FileState::Unsent,
        }
    }

    /// The checklist says what the marks do.
    fn agrees(&self, checklist: &Checklist) {
        let lacking = |file: &u32| self.state(*file) != FileState::Sent;
        let missing: Vec<u32> = (1..=self.files).filter(lacking).collect();
        assert_eq!(checklist.complete(), missing.is_empty());
        assert_eq!(checklist.missing(), missing);
        assert_eq!(checklist.files(), self.files);
        for file in 1..=self.files {
            assert_eq!(checklist.state(file), Ok(self.state(file)));
        }
    }
}

/// One call, by number.
fn change(checklist: &mut Checklist, call: u32, file: u32) -> Result<(), Refusal> {
    match call {
        0 => checklist.sent(file),
        1 => checklist.skipped(file),
        _ => checklist.withdraw(file),
    }
}

/// So many calls of random kinds on random files, one number beyond the list on each side. Answers how often it was
/// complete.
fn walk(random: &mut Random, files: u32, calls: u32) -> u32 {
    let (sent, skipped) = (BTreeSet::new(), BTreeSet::new());
    let mut model = Model {
        files,
        sent,
        skipped,
    };
    let mut checklist = opened(files);
    let mut complete = 0;
    for _ in 0..calls {
        let before = checklist.clone();
        let (call, file) = (random.below(4), random.below(files + 2));
        let told = change(&mut checklist, call, file);
        assert_eq!(told, model.change(call, file));
        assert_eq!(told.is_err(), checklist == before);
        model.agrees(&checklist);
        complete += u32::from(checklist.complete());
    }
    complete
}

#[test]
fn walks_agree_with_the_plain_marks() {
    let mut random = Random(106);
    let short: u32 = (1..=6).map(|files| walk(&mut random, files, 300)).sum();
    assert!(short > 100, "complete {short} times");
    walk(&mut random, 60, 200);
}

#[test]
fn all_60_files_there_and_back() {
    let mut checklist = opened(60);
    for file in (1..=60).rev() {
        assert!(!checklist.complete());
        assert_eq!(checklist.sent(file), Ok(()));
    }
    assert!(checklist.complete() && checklist.missing().is_empty());
    for file in 1..=60 {
        assert_eq!(checklist.skipped(file), Ok(()));
        assert_eq!(
            (checklist.complete(), checklist.missing()),
            (false, vec![file])
        );
        assert_eq!(checklist.withdraw(file), Ok(()));
        assert!(checklist.complete());
    }
}

#[test]
fn numbers_past_a_narrow_type_are_not_folded() {
    let mut checklist = opened(60);
    // 3 times the last two is 2 and 5 more than 2^32
    for file in [0, 61, 257, 65_537, u32::MAX, 0x5555_5556, 0x5555_5557] {
        for call in 0..3 {
            assert_eq!(
                change(&mut checklist, call, file),
                Err(Refusal::FileNotListed)
            );
        }
        assert_eq!(checklist.state(file), Err(Refusal::FileNotListed));
        assert_eq!(checklist.atoms(file), Err(Refusal::FileNotListed));
    }
    assert_eq!(checklist, opened(60));
}

#[test]
fn marks_that_an_addition_puts_count() {
    let mut table = marked(2, &[1], &[]).into_table();
    assert_eq!(table.add(4, &[], &[]), Ok(4)); // sent 2
    let mut checklist = Checklist::try_from(table).expect("a checklist");
    assert!(checklist.complete());
    assert_eq!(checklist.sent(2), Err(Refusal::MarkUnchanged));
    assert_eq!(checklist.table().justifications(4), Ok(vec![4]));
}

/// Other rules take the slots between, and are removed again.
#[test]
fn a_mark_may_stand_in_the_last_slot() {
    let mut table = marked(2, &[1, 2], &[]).into_table();
    for slot in 5..255 {
        assert_eq!(table.add(200, &[slot], &[]), Ok(slot));
    }
    assert_eq!(table.add(5, &[], &[]), Ok(255)); // skipped 2
    assert!(!is_checklist(&table));
    for slot in 5..255 {
        assert_eq!(table.remove(slot), Ok(()));
    }
    let mut checklist = Checklist::try_from(table).expect("a checklist");
    assert_eq!(checklist.missing(), [2]);
    assert_eq!(checklist.withdraw(2), Ok(()));
    assert_eq!(checklist, marked(2, &[1, 2], &[]));
}

/// The last file has a mark.
#[test]
fn a_frame_without_a_rule_is_no_checklist_until_it_is_mended() {
    let whole = marked(4, &[4, 1], &[2]);
    for slot in 0..=4 {
        let mut table = whole.table().clone();
        let rule = table.rule(slot).expect("a rule of the frame");
        assert_eq!(table.remove(slot), Ok(()));
        assert!(!is_checklist(&table), "slot {slot}");
        assert_eq!(
            table.add(rule.head, &rule.positives, &rule.negatives),
            Ok(slot)
        );
        assert_eq!(Checklist::try_from(table), Ok(whole.clone()));
    }
}

/// A rule of the frame that is taken from the end, or put there, makes a checklist of another length; unless a mark of
/// the last file is left, or the rule comes to another slot.
#[test]
fn shorter_and_longer_checklists() {
    let mut table = opened(3).into_table();
    assert_eq!(table.remove(3), Ok(()));
    assert_eq!(Checklist::try_from(table.clone()), Ok(opened(2)));
    assert_eq!(table.add(9, &[6, 7], &[8]), Ok(3));
    assert_eq!(Checklist::try_from(table), Ok(opened(3)));
    let mut now_complete = marked(3, &[1, 2], &[]).into_table();
    assert_eq!(now_complete.remove(3), Ok(()));
    let shorter = Checklist::try_from(now_complete).expect("a checklist");
    assert_eq!((shorter.files(), shorter.complete()), (2, true));
    let mut other_slot = marked(2, &[1], &[]).into_table();
    assert_eq!(other_slot.add(9, &[6, 7], &[8]), Ok(4));
    assert!(!is_checklist(&other_slot));
    let mut too_long = opened(60).into_table();
    assert_eq!(too_long.add(183, &[180, 181], &[182]), Ok(61));
    assert!(!is_checklist(&too_long));
    let mut none = opened(1).into_table();
    assert_eq!(none.remove(1), Ok(()));
    assert!(!is_checklist(&none) && !is_checklist(&Table::new()));
}

/// A mark may take the slot of the last file's rule, the next file's rule that of a mark, and one mark another's.
#[test]
fn replacements_leave_other_lengths_and_marks_too() {
    let mut table = opened(3).into_table();
    assert_eq!(table.replace(3, 1, &[], &[]), Ok(()));
    let one_sent = Checklist::try_from(table.clone());
    assert_eq!(one_sent, Ok(marked(2, &[1], &[])));
    assert_eq!(table.replace(3, 4, &[], &[]), Ok(()));
    let other_sent = Checklist::try_from(table.clone());
    assert_eq!(other_sent, Ok(marked(2, &[2], &[])));
    assert_eq!(table.replace(3, 9, &[6, 7], &[8]), Ok(()));
    assert_eq!(Checklist::try_from(table.clone()), Ok(opened(3)));
    assert_eq!(table.replace(2, 1, &[], &[]), Ok(()));
    assert!(!is_checklist(&table));
}

#[test]
fn any_other_rule_makes_it_no_checklist() {
    let others: [(u32, &[u32], &[u32]); 8] = [
        (200, &[], &[]), // no atom of a file
        (7, &[], &[]),   // sent, of a file that is not on the list
        (8, &[], &[]),   // skipped, of the same
        (3, &[], &[]),   // good, as a fact
        (6, &[], &[]),   // complete, as a fact
        (4, &[0], &[]),  // sent, but by a rule
        (5, &[], &[1]),  // skipped, by a rule
        (6, &[4], &[5]), // complete, by another rule
    ];
    for (head, positives, negatives) in others {
        let mut table = marked(2, &[1], &[]).into_table();
        let slot = table
            .add(head, positives, negatives)
            .expect("a sound table");
        assert!(!is_checklist(&table), "{head}");
        assert_eq!(table.remove(slot), Ok(()));
        assert!(is_checklist(&table));
    }
}

/// Is the table refused by every call with 15, before anything else is asked, and are table and buffer as they were?
fn refused_alike(fields: &raw::Table, file: u32) -> bool {
    let complete = raw::checklist_complete(fields);
    if complete.refused == 0 {
        return false;
    }
    let calls: [fn(&raw::Table, u32) -> Accepted; 3] = [
        raw::checklist_sent,
        raw::checklist_skipped,
        raw::checklist_withdraw,
    ];
    for told in calls.map(|call| call(fields, file)) {
        assert_eq!(told.refused, 15);
        assert!(told.table == *fields);
    }
    let mut buffer = [7; 61];
    for length in [0, 1, 61] {
        let told = raw::checklist_missing(fields, &mut buffer[..length]);
        assert_eq!((told.refused, told.count), (15, 0));
    }
    assert_eq!(buffer, [7; 61]);
    assert_eq!((complete.refused, complete.complete), (15, 0));
    true
}

/// A rule of the frame or a mark, valid or spoiled. Where it is spoiled, muting changes no other slot, and so can be done
/// by hand.
#[test]
fn a_muted_rule_makes_it_no_checklist_until_it_is_unmuted() {
    let whole = marked(3, &[1, 3], &[2]);
    for slot in 0..7 {
        let mut table = whole.table().clone();
        assert_eq!(table.mute(slot), Ok(()));
        assert!(refused_alike(table.as_raw(), 1), "slot {slot}");
        assert!(!is_checklist(&table));
        let loaded = Table::load(&table.save()).expect("a table");
        assert!(!is_checklist(&loaded));
        assert_eq!(table.unmute(slot), Ok(()));
        assert_eq!(Checklist::try_from(table), Ok(whole.clone()));
    }
    let mut by_hand = *whole.table().as_raw();
    *word(&mut by_hand, 3, Place::State) = 2;
    *word(&mut by_hand, 3, Place::Spoiler) = 0;
    assert!(Table::try_from(by_hand).is_ok());
    assert!(refused_alike(&by_hand, 1));
}

/// Muting the last file's rule does not take that file from the list, as removing it does.
#[test]
fn muting_makes_no_checklist_of_another_length() {
    let mut table = marked(3, &[1, 2], &[]).into_table();
    assert_eq!(table.mute(3), Ok(()));
    assert!(!is_checklist(&table));
    assert_eq!(table.remove(3), Ok(()));
    let shorter = Checklist::try_from(table).expect("a checklist");
    assert_eq!((shorter.files(), shorter.complete()), (2, true));
}

#[test]
fn tables_of_any_bytes_are_refused_alike() {
    let mut random = Random(15);
    for _ in 0..500 {
        assert!(refused_alike(&random.fields(), random.below(63)));
        assert!(refused_alike(
            random.table(30, 12).as_raw(),
            random.below(63)
        ));
    }
    assert!((0..=255).all(|byte| refused_alike(&raw::Table::from_bytes(&[byte; 7168]), 1)));
}

/// Then it is not sound: other marks have other labels, and other rules are no checklist's.
#[test]
fn one_byte_of_a_checklist_changed() {
    let whole = marked(3, &[1, 3], &[2]);
    for place in 0..raw::Table::BYTES {
        let mut bytes = *whole.table().as_raw().as_bytes();
        bytes[place] ^= 1 << (place % 8);
        let fields = raw::Table::from_bytes(&bytes);
        assert!(refused_alike(&fields, 2), "byte {place}");
    }
}

#[test]
fn buffers_entry_for_entry() {
    for missing in [&[][..], &[2], &[1, 3, 60]] {
        let sent: Vec<u32> = (1..=60).filter(|file| !missing.contains(file)).collect();
        let checklist = marked(60, &sent, &missing[..missing.len() / 2]);
        let blank: Vec<u32> = (1000..1063).collect();
        for length in 0..blank.len() {
            let mut buffer = blank.clone();
            let fields = checklist.table().as_raw();
            let told = raw::checklist_missing(fields, &mut buffer[..length]);
            let written = if length < missing.len() { &[] } else { missing };
            let refused = if length < missing.len() { 11 } else { 0 };
            assert_eq!((told.refused, told.count), (refused, missing.len()));
            assert_eq!(buffer, [written, &blank[written.len()..]].concat());
        }
    }
}

#[test]
fn refused_calls_leave_the_table_in_their_order() {
    let checklist = marked(2, &[1], &[2]);
    let fields = checklist.table().as_raw();
    for (told, number) in [
        (raw::checklist_sent(fields, 0), 20),
        (raw::checklist_sent(fields, 3), 20),
        (raw::checklist_sent(fields, 1), 22),
        (raw::checklist_skipped(fields, u32::MAX), 20),
        (raw::checklist_skipped(fields, 2), 22),
        (raw::checklist_withdraw(fields, 61), 20),
        (raw::checklist_withdraw(fields, 1), 22),
    ] {
        assert_eq!(told.refused, number);
        assert!(told.table == *fields);
    }
}

/// The atoms of the rules that stop, from complete down, each with what stops it and how.
fn stops(why: &Why) -> Vec<(u32, Side, u32)> {
    match &why.because {
        Because::Stopped(rules) => rules
            .iter()
            .flat_map(|stopped| match &stopped.stop {
                Stop::Spoiled { side, by, .. } => {
                    [vec![(why.atom, *side, by.atom)], stops(by)].concat()
                }
                other => panic!("of a checklist: {other:?}"),
            })
            .collect(),
        _ => Vec::new(),
    }
}

#[test]
fn why_leads_to_the_first_missing_file() {
    use Side::{Negative, Positive};
    let unsent = marked(3, &[3], &[3]).why();
    let down = [(9, Positive, 6), (6, Positive, 3), (3, Positive, 1)];
    assert_eq!(stops(&unsent), down);
    let skipped = marked(3, &[1, 2, 3], &[2, 3]).why();
    assert_eq!(stops(&skipped), [(9, Positive, 6), (6, Negative, 5)]);
    let complete = marked(3, &[1, 2, 3], &[]).why();
    assert!(complete.label.is_in() && stops(&complete).is_empty());
}

#[test]
fn a_checklist_says_what_each_missing_file_lacks() {
    let mut checklist = marked(4, &[1, 4], &[3, 4]);
    let words = "complete: no. File 2 has not been sent. File 3 was skipped. File 4 was skipped.";
    assert_eq!(checklist.to_string(), words);
    for (file, words) in [
        (1, "was sent"),
        (2, "has not been sent"),
        (4, "was skipped"),
    ] {
        assert_eq!(
            checklist.state(file).map(|s| s.to_string()),
            Ok(words.to_string())
        );
    }
    checklist = marked(4, &[1, 2, 3, 4], &[]);
    assert_eq!(checklist.to_string(), "complete: yes");
}

#[test]
fn atoms_have_names() {
    let checklist = opened(2);
    let names: Vec<Option<String>> = (0..8).map(|atom| checklist.name(atom)).collect();
    let expected = [
        "opened",
        "file 1 sent",
        "file 1 skipped",
        "file 1 good",
        "file 2 sent",
        "file 2 skipped",
        "complete",
    ];
    assert!(names.iter().flatten().eq(&expected));
    assert_eq!((names.len(), names[7].clone()), (8, None));
    assert_eq!(checklist.name(u32::MAX), None);
}

#[test]
fn a_saved_checklist_comes_back() {
    let checklist = marked(60, &[1, 7, 60], &[7, 8]);
    let loaded = Table::load(&checklist.table().save()).expect("a table");
    assert_eq!(Checklist::try_from(loaded), Ok(checklist));
}
