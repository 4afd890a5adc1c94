//! A list of calls written as numbers, made on the plain book; the answers are numbers too.
//!
//! 0 and a slot is a removal. 1, a head, how many positives, how many negatives, then these: an addition. 2 and two
//! numbers: a file is loaded, the bytes from the first number on and below the second, of the bytes that come beside
//! the list. 3 and how many files: a checklist is opened. 4, 5 or 6 and a file: it is sent, it is skipped, its skip is
//! withdrawn. 7, a slot, and the numbers of an addition from its head on: a replacement. 8, a slot and a mark: the mark
//! 0 unmutes, any other mutes. Any other number ends the list, and so does a call that is cut short, a load from beyond
//! those bytes, or a call for whose answer there is no room.

use crate::book::Book;
use crate::calls::{Answer, Call};

/// The answer of an accepted call that is no addition. A refusal's is this and its number; an addition's is its slot,
/// which is smaller.
const ACCEPTED: u32 = 65_536;

/// What is left of a list of numbers, and the bytes beside it.
struct Rest<'a> {
    words: &'a [u32],
    files: &'a [u8],
}

impl<'a> Rest<'a> {
    fn number(&mut self) -> Option<u32> {
        let (&first, rest) = self.words.split_first()?;
        self.words = rest;
        Some(first)
    }

    fn list(&mut self, count: u32) -> Option<&'a [u32]> {
        let (list, rest) = self.words.split_at_checked(count as usize)?;
        self.words = rest;
        Some(list)
    }

    /// A head, how many positives, how many negatives, then these.
    fn rule(&mut self) -> Option<(u32, Vec<u32>, Vec<u32>)> {
        let (head, positives, negatives) = (self.number()?, self.number()?, self.number()?);
        let (positives, negatives) = (self.list(positives)?, self.list(negatives)?);
        Some((head, positives.to_vec(), negatives.to_vec()))
    }

    fn addition(&mut self) -> Option<Call> {
        let (head, positives, negatives) = self.rule()?;
        Some(Call::Add {
            head,
            positives,
            negatives,
        })
    }

    fn replacement(&mut self) -> Option<Call> {
        let slot = self.number()?;
        let (head, positives, negatives) = self.rule()?;
        Some(Call::Replace {
            slot,
            head,
            positives,
            negatives,
        })
    }

    /// The call that stands here; `None` where none stands.
    fn call(&mut self) -> Option<Call> {
        let call = match self.number()? {
            0 => Call::Remove {
                slot: self.number()?,
            },
            1 => self.addition()?,
            2 => {
                let (from, to) = (self.number()?, self.number()?);
                let bytes = self.files.get(from as usize..to as usize)?.to_vec();
                Call::Load { bytes }
            }
            3 => Call::Open {
                files: self.number()?,
            },
            kind @ 4..=6 => on_file(kind, self.number()?),
            7 => self.replacement()?,
            8 => Call::Mute {
                slot: self.number()?,
                mark: self.number()?,
            },
            _ => return None,
        };
        Some(call)
    }
}

/// The call on a file that the kind 4, 5 or 6 says.
fn on_file(kind: u32, file: u32) -> Call {
    match kind {
        4 => Call::FileSent { file },
        5 => Call::FileSkipped { file },
        _ => Call::SkipWithdrawn { file },
    }
}

/// The calls of a list up to its end. `files` are the bytes beside the list.
pub fn calls(words: &[u32], files: &[u8]) -> Vec<Call> {
    let mut rest = Rest { words, files };
    std::iter::from_fn(|| rest.call()).collect()
}

/// An answer of the book as a number.
fn as_number(answer: Result<Answer, u32>) -> u32 {
    match answer {
        Ok(Answer::Slot(slot)) => slot,
        Ok(_) => ACCEPTED,
        Err(refusal) => ACCEPTED + refusal,
    }
}

/// The answers of the list's calls, made one after another on the empty book, at most `room` of them; and the book.
/// `files` are the bytes beside the list.
pub fn replay(words: &[u32], files: &[u8], room: usize) -> (Vec<u32>, Book) {
    let mut book = Book::empty();
    let calls = calls(words, files);
    let mut make = |call| as_number(book.make(call).expect("a call that changes a table"));
    let answers = calls.iter().take(room).map(&mut make).collect();
    (answers, book)
}
