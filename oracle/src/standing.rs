//! What a list of openings and calls on files says of the files, read off the calls and their answers alone.

use crate::calls::Call;
use std::collections::BTreeSet;

/// At first no checklist is open.
#[derive(Clone, PartialEq, Eq, Default, Debug)]
pub struct Standing {
    /// How many files the last opening was for, 0 where it was refused.
    files: u32,
    sent: BTreeSet<u32>,
    skipped: BTreeSet<u32>,
}

impl Standing {
    /// Takes the next call of the list, and whether it was accepted. An opening starts over, also a refused one; any
    /// other refused call changes nothing.
    pub fn note(&mut self, call: &Call, accepted: bool) {
        if let Call::Open { files } = call {
            *self = Standing::default();
            self.files = if accepted { *files } else { 0 };
        }
        if !accepted {
            return;
        }
        match call {
            Call::FileSent { file } => {
                self.sent.insert(*file);
            }
            Call::FileSkipped { file } => {
                self.skipped.insert(*file);
            }
            Call::SkipWithdrawn { file } => {
                self.skipped.remove(file);
            }
            _ => {}
        }
    }

    /// The files that have not been sent or have a skip standing, ascending; `None` where no checklist is open.
    pub fn missing(&self) -> Option<Vec<u32>> {
        let lacks = |file: &u32| !self.sent.contains(file) || self.skipped.contains(file);
        let files = (1..=self.files).filter(lacks).collect();
        (self.files > 0).then_some(files)
    }

    /// Has every file been sent, and has none a skip standing? `None` where no checklist is open.
    pub fn complete(&self) -> Option<bool> {
        self.missing().map(|files| files.is_empty())
    }
}
