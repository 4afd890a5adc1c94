//! The book's steps for the calls of a checklist. It asks its pages whether they are one.

use super::Book;
use crate::checklist::{frame_rule, Mark};
use crate::limits::FILES;
use crate::rules::{Page, Rule};

/// Does the page hold this rule, and is it not muted?
fn says(holds: &Option<Page>, rule: &Rule) -> bool {
    holds
        .as_ref()
        .is_some_and(|page| !page.muted && page.rule == *rule)
}

/// May the page hold this in a checklist of so many files? The frame stands on the pages up to the last file's; any
/// other page is free or has a file's mark.
fn fits(files: u32, page: u32, holds: &Option<Page>) -> bool {
    if page <= files {
        return says(holds, &frame_rule(page));
    }
    let has_mark = |file| Mark::BOTH.iter().any(|mark| says(holds, &mark.fact(file)));
    holds.is_none() || (1..=files).any(has_mark)
}

impl Book {
    /// How many files the checklist has that the pages are, if they are one.
    fn files(&self) -> Option<u32> {
        let fit = |files| {
            (0..)
                .zip(&self.pages)
                .all(|(page, holds)| fits(files, page, holds))
        };
        (1..=FILES).find(|&files| fit(files))
    }

    /// Questions 15 and 20.
    fn ask_file(&self, file: u32) -> Result<(), u32> {
        match self.files() {
            None => Err(15),
            Some(files) if file == 0 || file > files => Err(20),
            Some(_) => Ok(()),
        }
    }

    /// Puts the frame of so many files on the first pages, all others being free, and answers that it was accepted; or
    /// answers 21, and every page is free. What the pages held before plays no part.
    pub fn open(&mut self, files: u32) -> Result<(), u32> {
        *self = Book::empty();
        if files == 0 || files > FILES {
            return Err(21);
        }
        for (page, holds) in (0..=files).zip(&mut self.pages) {
            *holds = Some(Page::unmuted(frame_rule(page)));
        }
        Ok(())
    }

    /// Puts a mark on the lowest free page; 15, 20 and 22 are asked.
    fn mark(&mut self, mark: Mark, file: u32) -> Result<(), u32> {
        self.ask_file(file)?;
        let fact = mark.fact(file);
        if self.pages.iter().any(|page| says(page, &fact)) {
            return Err(22);
        }
        // A checklist has 181 rules at most: a page is free.
        let free = self.pages.iter_mut().find(|page| page.is_none());
        *free.expect("a free page") = Some(Page::unmuted(fact));
        Ok(())
    }

    pub fn file_sent(&mut self, file: u32) -> Result<(), u32> {
        self.mark(Mark::Sent, file)
    }

    pub fn file_skipped(&mut self, file: u32) -> Result<(), u32> {
        self.mark(Mark::Skipped, file)
    }

    /// Frees the page of the skip; 15, 20 and 22 are asked.
    pub fn skip_withdrawn(&mut self, file: u32) -> Result<(), u32> {
        self.ask_file(file)?;
        let fact = Mark::Skipped.fact(file);
        let page = self.pages.iter_mut().find(|page| says(page, &fact));
        *page.ok_or(22_u32)? = None;
        Ok(())
    }
}
