//! The plain book: pages of rules, each with a mark, fed the calls' arguments as they came.
//!
//! It asks its questions in its own words and shares with the calls only what a rule, a loop
//! through a negation, a file and the frame of a checklist are, so that a list of calls can be
//! held against it.

mod checklist;

use crate::calls::{Answer, Call};
use crate::file;
use crate::limits::{ATOMS, ENTRIES, SLOTS};
use crate::loops::has_loop_through_negation;
use crate::rules::{Page, Program, Rule};

#[derive(Clone, PartialEq, Eq, Debug)]
pub struct Book {
    pages: Program,
}

/// A head and two lists in any order, as a call names them.
struct Named<'a> {
    head: u32,
    positives: &'a [u32],
    negatives: &'a [u32],
}

impl Named<'_> {
    fn entries(&self) -> impl Iterator<Item = u32> + '_ {
        self.positives.iter().chain(self.negatives).copied()
    }

    fn rule(&self) -> Rule {
        Rule::of(self.head, self.positives, self.negatives)
    }

    /// The rule as it comes to stand on a page: unmuted.
    fn page(&self) -> Option<Page> {
        let (rule, muted) = (self.rule(), false);
        Some(Page { rule, muted })
    }
}

/// A question with its number: the answer "no" refuses.
type Question = (u32, fn(&Book, &Named) -> bool);

/// What is asked of a new rule, in order.
const QUESTIONS: [Question; 7] = [
    (1, |_, named| named.head < ATOMS as u32),
    (2, |_, named| named.entries().count() <= ENTRIES),
    (3, |_, named| {
        named.entries().all(|entry| entry < ATOMS as u32)
    }),
    (4, |_, named| {
        each_once(named.positives) && each_once(named.negatives)
    }),
    (5, |book, named| {
        let new = named.rule();
        book.rules().all(|rule| *rule != new)
    }),
    (6, |book, _| book.pages.contains(&None)),
    (7, |book, named| {
        !has_loop_through_negation(&book.with(named.page()))
    }),
];

/// Those of them that an addition asks.
const ADDITION: [u32; 7] = [1, 2, 3, 4, 5, 6, 7];

/// Those that a replacement asks of its rule: its page is there already.
const REPLACEMENT: [u32; 6] = [1, 2, 3, 4, 5, 7];

fn each_once(list: &[u32]) -> bool {
    let mut sorted = list.to_vec();
    sorted.sort_unstable();
    sorted.windows(2).all(|pair| pair[0] != pair[1])
}

impl Book {
    /// The book with every page free.
    pub fn empty() -> Book {
        Book {
            pages: vec![None; SLOTS],
        }
    }

    /// The book with these pages.
    pub fn holding(pages: Program) -> Book {
        Book { pages }
    }

    /// What each page holds.
    pub fn pages(&self) -> &Program {
        &self.pages
    }

    /// The rules of all pages, whatever their marks are.
    fn rules(&self) -> impl Iterator<Item = &Rule> {
        self.pages.iter().flatten().map(|page| &page.rule)
    }

    /// The pages and one besides, wherever it would go.
    fn with(&self, page: Option<Page>) -> Program {
        let mut pages = self.pages.clone();
        pages.push(page);
        pages
    }

    /// Asks the questions of these numbers and gives the number of the first "no".
    fn ask(&self, numbers: &[u32], named: &Named) -> Result<(), u32> {
        let asked = QUESTIONS
            .iter()
            .filter(|(number, _)| numbers.contains(number));
        let mut refused = asked.filter(|(_, passes)| !passes(self, named));
        refused.next().map_or(Ok(()), |(number, _)| Err(*number))
    }

    /// Puts the rule on the lowest free page and answers the page's number, or answers the
    /// number of the first "no" and stays.
    pub fn add(&mut self, head: u32, positives: &[u32], negatives: &[u32]) -> Result<u32, u32> {
        let named = Named {
            head,
            positives,
            negatives,
        };
        self.ask(&ADDITION, &named)?;
        let page = self.pages.iter().take_while(|page| page.is_some()).count();
        self.pages[page] = named.page();
        Ok(page as u32)
    }

    /// Frees the page and answers that it was accepted, or answers the number of the first
    /// "no" and stays.
    pub fn remove(&mut self, slot: u32) -> Result<(), u32> {
        match self.pages.get_mut(slot as usize) {
            None => Err(8),
            Some(None) => Err(9),
            Some(page) => {
                *page = None;
                Ok(())
            }
        }
    }

    /// Puts the rule on that page in place of the one there and answers that it was accepted,
    /// or answers the number of the first "no" and stays. The new rule is judged by the book
    /// without the old one.
    pub fn replace(
        &mut self,
        slot: u32,
        head: u32,
        positives: &[u32],
        negatives: &[u32],
    ) -> Result<(), u32> {
        let mut without = self.clone();
        without.remove(slot)?;
        let named = Named {
            head,
            positives,
            negatives,
        };
        without.ask(&REPLACEMENT, &named)?;
        self.pages[slot as usize] = named.page();
        Ok(())
    }

    /// Sets the mark of that page and answers that it was accepted, or answers the number of the
    /// first "no" and stays. Only the mark 0 is that of an unmuted rule.
    pub fn mute(&mut self, slot: u32, mark: u32) -> Result<(), u32> {
        let page = self.pages.get_mut(slot as usize).ok_or(8_u32)?;
        page.as_mut().ok_or(9_u32)?.muted = mark != 0;
        Ok(())
    }

    /// What the book answers to a call that changes a table, once it has made it; `None` for the
    /// other calls, which it does not have.
    pub fn make(&mut self, call: &Call) -> Option<Result<Answer, u32>> {
        let answer = match call {
            Call::Add {
                head,
                positives,
                negatives,
            } => return Some(self.add(*head, positives, negatives).map(Answer::Slot)),
            Call::Remove { slot } => self.remove(*slot),
            Call::Replace {
                slot,
                head,
                positives,
                negatives,
            } => self.replace(*slot, *head, positives, negatives),
            Call::Mute { slot, mark } => self.mute(*slot, *mark),
            Call::Load { bytes } => self.load(bytes),
            Call::Open { files } => self.open(*files),
            Call::FileSent { file } => self.file_sent(*file),
            Call::FileSkipped { file } => self.file_skipped(*file),
            Call::SkipWithdrawn { file } => self.skip_withdrawn(*file),
            _ => return None,
        };
        Some(answer.map(|()| Answer::Accepted))
    }

    /// Puts the rule of each record, with its mark, on the page of its slot, all other pages being
    /// free, and answers that it was accepted; or answers the number of the first "no", and every page
    /// is free. What the pages held before plays no part.
    pub fn load(&mut self, bytes: &[u8]) -> Result<(), u32> {
        *self = Book::empty();
        self.pages = file::read(bytes)?;
        Ok(())
    }
}
