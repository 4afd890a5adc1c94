//! One call on both sides, the proved library and the slow engine: answer, table and every entry of a lent buffer.

use compare::boundary::from_slow;
use oracle::calls::{Answer, Call, Lent, Validity, Written};
use oracle::labels::Label;
use oracle::questions::Refusal;
use oracle::random::Random;
use oracle::relations::{Side, Spoiler};
use oracle::table::RawTable;
use yeqontur::raw;

/// An answer in numbers, comparable on both sides: the refusal with its needed length, or the values.
#[derive(PartialEq, Eq, Debug)]
enum Told {
    Refused { number: u32, needed: usize },
    Values(Vec<u32>),
}

/// What the slow engine told.
fn slow(told: Result<Answer, Refusal>) -> Told {
    let values = match told {
        Err(Refusal::BufferTooShort { needed }) => {
            return Told::Refused {
                number: 11,
                needed: needed as usize,
            }
        }
        Err(refusal) => {
            return Told::Refused {
                number: refusal.number(),
                needed: 0,
            }
        }
        Ok(Answer::Slot(slot)) => vec![slot],
        Ok(Answer::Accepted) => vec![],
        Ok(Answer::Label(Label::Absent)) => vec![0, 0, 0],
        Ok(Answer::Label(Label::Out)) => vec![1, 0, 0],
        Ok(Answer::Label(Label::In { depth, slot })) => vec![2, depth, slot],
        Ok(Answer::Rule(rule)) => rule_numbers(&rule),
        Ok(Answer::Spoiler(Validity::Valid)) => vec![0, 0, 0],
        Ok(Answer::Spoiler(Validity::Spoiled(spoiler))) => stopper(spoiler),
        Ok(Answer::Spoiler(Validity::Muted)) => vec![3, 0, 0],
        Ok(Answer::Count(count)) => vec![count],
        Ok(Answer::Complete(complete)) => vec![complete.into()],
    };
    Told::Values(values)
}

/// A rule as the boundary has it.
fn rule_numbers(rule: &Written) -> Vec<u32> {
    let mut numbers = vec![rule.head, rule.muted.into(), rule.positives, rule.negatives];
    numbers.extend(rule.entries);
    numbers
}

/// An entry that spoils as the boundary has it: 1 for the positive list or 2 for the negative, then atom and place.
fn stopper(Spoiler { side, place, atom }: Spoiler) -> Vec<u32> {
    let spoiled = match side {
        Side::Positive => 1,
        Side::Negative => 2,
    };
    vec![spoiled, atom, place]
}

/// What the numbers of an answer tell. A refusal says nothing else: with another number beside it, it is told as
/// values, which no refusal equals.
fn told(refused: u32, values: Vec<u32>) -> Told {
    match refused {
        0 => Told::Values(values),
        number if values.iter().all(|&value| value == 0) => Told::Refused { number, needed: 0 },
        _ => Told::Values(values),
    }
}

/// What a call tells that writes into a lent buffer: how much it wrote, or with a refusal how much it needs.
fn counted(refused: u32, count: usize) -> Told {
    match refused {
        0 => Told::Values(vec![count as u32]),
        number => Told::Refused {
            number,
            needed: count,
        },
    }
}

/// A call that writes into a lent buffer, on the proved library; `None` for the others.
fn proved_writing(call: &Call, table: &raw::Table, lent: &mut Lent) -> Option<Told> {
    let (which, atom) = match call {
        Call::Justifications { atom } => (raw::List::Justifications, *atom),
        Call::Consequences { atom } => (raw::List::Consequences, *atom),
        Call::Repercussions { atom } => (raw::List::Repercussions, *atom),
        Call::Reason { atom } => (raw::List::Reason, *atom),
        Call::Labels => {
            let written = raw::labels(table, &mut lent.numbers);
            return Some(counted(written.refused, written.count));
        }
        Call::Save => {
            let written = raw::save(table, &mut lent.bytes);
            return Some(counted(written.refused, written.count));
        }
        Call::Missing => {
            let written = raw::checklist_missing(table, &mut lent.numbers);
            return Some(counted(written.refused, written.count));
        }
        _ => return None,
    };
    let answer = raw::list(which, table, atom, &mut lent.numbers);
    Some(counted(answer.refused, answer.count))
}

/// A question that writes nothing, on the proved library; `None` for the others.
fn proved_question(call: &Call, table: &raw::Table) -> Option<Told> {
    match call {
        Call::Label { atom } => {
            let label = raw::label(table, *atom);
            let values = vec![label.state, label.depth, label.slot];
            Some(told(label.refused, values))
        }
        Call::Rule { slot } => {
            let rule = raw::rule(table, *slot);
            let mut values = vec![rule.head, rule.muted, rule.positives, rule.negatives];
            values.extend(rule.entries);
            Some(told(rule.refused, values))
        }
        Call::Spoiler { slot } => {
            let spoiler = raw::spoiler(table, *slot);
            let values = vec![spoiler.spoiled, spoiler.atom, spoiler.place];
            Some(told(spoiler.refused, values))
        }
        Call::Complete => {
            let answer = raw::checklist_complete(table);
            Some(told(answer.refused, vec![answer.complete]))
        }
        _ => None,
    }
}

/// A change that answers that it was accepted and nothing else, on the proved library; `None` for the others.
fn proved_accepted(call: &Call, table: &mut raw::Table) -> Option<Told> {
    let change = match call {
        Call::Replace {
            slot,
            head,
            positives,
            negatives,
        } => raw::replace(table, *slot, *head, positives, negatives),
        Call::Mute { slot, mark } => raw::mute(table, *slot, *mark),
        Call::Load { bytes } => raw::load(bytes),
        Call::Open { files } => raw::checklist_open(*files),
        Call::FileSent { file } => raw::checklist_sent(table, *file),
        Call::FileSkipped { file } => raw::checklist_skipped(table, *file),
        Call::SkipWithdrawn { file } => raw::checklist_withdraw(table, *file),
        _ => return None,
    };
    *table = change.table;
    Some(told(change.refused, vec![]))
}

/// An addition or a removal, on the proved library; `None` for the others.
fn proved_change(call: &Call, table: &mut raw::Table) -> Option<Told> {
    match call {
        Call::Add {
            head,
            positives,
            negatives,
        } => {
            let change = raw::add(table, *head, positives, negatives);
            *table = change.table;
            Some(told(change.refused, vec![change.slot]))
        }
        Call::Remove { slot } => {
            let change = raw::remove(table, *slot);
            *table = change.table;
            // The slot that was freed is told again; any other is a difference.
            let is_freed = change.refused == 0 && change.slot == *slot;
            let values = if is_freed { vec![] } else { vec![change.slot] };
            Some(told(change.refused, values))
        }
        _ => None,
    }
}

/// The same call on the proved library.
fn proved(call: &Call, table: &mut raw::Table, lent: &mut Lent) -> Told {
    let told = proved_writing(call, table, lent)
        .or_else(|| proved_question(call, table))
        .or_else(|| proved_accepted(call, table))
        .or_else(|| proved_change(call, table));
    told.expect("every call is one of these")
}

/// Buffers of any length, filled with numbers that no call writes, and with random bytes.
fn buffers(random: &mut Random) -> Lent {
    let numbers = *random.pick(&[
        0, 1, 2, 3, 4, 5, 8, 20, 59, 60, 61, 100, 240, 255, 256, 257, 300, 1_023, 1_024, 1_025,
    ]);
    let bytes = *random.pick(&[0, 1, 511, 512, 513, 1_024, 6_143, 6_144, 7_000]);
    Lent {
        numbers: (0..numbers).map(|i| 1_000_000 + i).collect(),
        bytes: (0..bytes).map(|_| random.word() as u8).collect(),
    }
}

/// One call on both sides: the number of its refusal, 0 where it was accepted; or what differs.
pub fn made(call: &Call, table: &mut RawTable, random: &mut Random) -> Result<u32, String> {
    let mut mine = from_slow(table);
    let mut lent = buffers(random);
    let mut also = lent.clone();
    let answer = call.make(table, &mut lent);
    let expected = slow(answer);
    let answered = proved(call, &mut mine, &mut also);
    if answered != expected {
        return Err(format!("{call:?}: {answered:?}, expected {expected:?}"));
    }
    if also != lent {
        return Err(format!("{call:?}: another buffer"));
    }
    if mine != from_slow(table) {
        return Err(format!("{call:?}: another table"));
    }
    Ok(answer.err().map_or(0, Refusal::number))
}
