//! The deposit checklist: which files were sent, which were skipped, and whether that is all of them.

use crate::table::answered;
use crate::{raw, Refusal, Table, Why};
use std::fmt;

/// A checklist of 1 to 60 files, numbered from 1. It is complete exactly if every file was sent and no skip stands.
///
/// It is always a checklist: it is opened as one, a table becomes one only if its rules are those of one, and the calls
/// that change it keep it one. So a question that names no file is never refused. It has no muted rule: a table with
/// one is no checklist until that rule is unmuted, and the calls here mute none.
///
/// Printed, it says whether it is complete, and of each missing file what it lacks.
///
/// ```
/// # use yeqontur::{Checklist, Refusal};
/// let mut checklist = Checklist::open(2)?;
/// checklist.sent(1)?;
/// checklist.skipped(2)?;
/// assert_eq!(checklist.missing(), [2]);
/// assert_eq!(checklist.to_string(), "complete: no. File 2 was skipped.");
/// checklist.withdraw(2)?;
/// assert_eq!(checklist.to_string(), "complete: no. File 2 has not been sent.");
/// checklist.sent(2)?;
/// assert!(checklist.complete());
/// # Ok::<(), Refusal>(())
/// ```
#[derive(Clone, PartialEq, Eq, Hash, Debug)]
pub struct Checklist(Table);

/// The atoms of a file, to ask the table about. More may come.
///
/// ```
/// # use yeqontur::Checklist;
/// let mut checklist = Checklist::open(2)?;
/// let first = checklist.atoms(1)?;
/// checklist.sent(1)?;
/// assert!(checklist.table().label(first.sent)?.is_in());
/// assert!(!checklist.table().label(first.skipped)?.is_in());
/// assert!(checklist.table().label(first.good)?.is_in());
/// # Ok::<(), yeqontur::Refusal>(())
/// ```
#[non_exhaustive]
#[derive(Clone, Copy, PartialEq, Eq, Hash, Debug)]
pub struct Atoms {
    /// In if the file was sent.
    pub sent: u32,
    /// In if a skip of the file stands.
    pub skipped: u32,
    /// In if this file and those before it were sent, and none of them has a skip standing.
    pub good: u32,
}

/// What the marks of a file say: one of these three. A screen shows each in its own way, so no other comes without a
/// program being told so when it is built.
///
/// ```
/// # use yeqontur::{Checklist, FileState};
/// let mut checklist = Checklist::open(1)?;
/// assert_eq!(checklist.state(1)?, FileState::Unsent);
/// checklist.skipped(1)?;
/// checklist.sent(1)?; // the skip still stands
/// assert_eq!(checklist.state(1)?, FileState::Skipped);
/// checklist.withdraw(1)?;
/// assert_eq!(checklist.state(1)?, FileState::Sent);
/// # Ok::<(), yeqontur::Refusal>(())
/// ```
#[derive(Clone, Copy, PartialEq, Eq, Hash, Debug)]
pub enum FileState {
    /// Sent, and no skip stands.
    Sent,
    /// Not sent, and no skip stands.
    Unsent,
    /// A skip stands, whether the file was sent or not.
    Skipped,
}

/// What follows the file in a sentence.
///
/// ```
/// # use yeqontur::FileState;
/// let sentence = |state: FileState| format!("File 4 {state}.");
/// assert_eq!(sentence(FileState::Sent), "File 4 was sent.");
/// assert_eq!(sentence(FileState::Unsent), "File 4 has not been sent.");
/// assert_eq!(sentence(FileState::Skipped), "File 4 was skipped.");
/// ```
impl fmt::Display for FileState {
    fn fmt(&self, f: &mut fmt::Formatter<'_>) -> fmt::Result {
        f.write_str(match self {
            FileState::Sent => "was sent",
            FileState::Unsent => "has not been sent",
            FileState::Skipped => "was skipped",
        })
    }
}

/// A table that was built or loaded: refused (15) unless its rules are those that the marks of 1 to 60 files give, and
/// none of them is muted. The rules alone say how many: where the last file's rule was removed or replaced, or the next
/// file's put in, it may be a checklist of another length. So who counts on a list changes it by the calls of
/// `Checklist` alone.
///
/// ```
/// # use yeqontur::{Checklist, Refusal, Table};
/// let mut checklist = Checklist::open(3)?;
/// checklist.sent(2)?;
/// let file = checklist.table().save();
/// assert_eq!(Checklist::try_from(Table::load(&file)?)?, checklist);
/// assert_eq!(Checklist::try_from(Table::new()), Err(Refusal::TableUnsound));
/// # Ok::<(), Refusal>(())
/// ```
impl TryFrom<Table> for Checklist {
    type Error = Refusal;

    fn try_from(table: Table) -> Result<Checklist, Refusal> {
        let told = raw::checklist_complete(table.as_raw());
        answered(told.refused, 0, Checklist(table))
    }
}

impl Checklist {
    /// A checklist of so many files, none of them sent or skipped.
    ///
    /// ```
    /// # use yeqontur::{Checklist, Refusal};
    /// assert_eq!(Checklist::open(3)?.missing(), [1, 2, 3]);
    /// assert_eq!(Checklist::open(0), Err(Refusal::WrongFileCount));
    /// assert_eq!(Checklist::open(61), Err(Refusal::WrongFileCount));
    /// # Ok::<(), Refusal>(())
    /// ```
    ///
    /// # Errors
    ///
    /// [`Refusal::WrongFileCount`] (21).
    pub fn open(files: u32) -> Result<Checklist, Refusal> {
        let told = raw::checklist_open(files);
        answered(told.refused, 0, Checklist(Table(told.table)))
    }

    /// The file was sent. A skip of it stays until it is withdrawn. A refused call, here and below, leaves the
    /// checklist as it was.
    ///
    /// ```
    /// # use yeqontur::{Checklist, Refusal};
    /// let mut checklist = Checklist::open(2)?;
    /// checklist.sent(1)?;
    /// assert_eq!(checklist.missing(), [2]);
    /// assert_eq!(checklist.sent(1), Err(Refusal::MarkUnchanged)); // nothing has to be done
    /// assert_eq!(checklist.sent(3), Err(Refusal::FileNotListed));
    /// # Ok::<(), Refusal>(())
    /// ```
    ///
    /// # Errors
    ///
    /// The first of these that applies: [`Refusal::FileNotListed`] (20), [`Refusal::MarkUnchanged`] (22).
    pub fn sent(&mut self, file: u32) -> Result<(), Refusal> {
        self.change(raw::checklist_sent, file)
    }

    /// The file was skipped, sent or not.
    ///
    /// ```
    /// # use yeqontur::{Checklist, Refusal};
    /// let mut checklist = Checklist::open(1)?;
    /// checklist.sent(1)?;
    /// assert!(checklist.complete());
    /// checklist.skipped(1)?;
    /// assert!(!checklist.complete());
    /// assert_eq!(checklist.skipped(1), Err(Refusal::MarkUnchanged));
    /// # Ok::<(), Refusal>(())
    /// ```
    ///
    /// # Errors
    ///
    /// The first of these that applies: [`Refusal::FileNotListed`] (20), [`Refusal::MarkUnchanged`] (22).
    pub fn skipped(&mut self, file: u32) -> Result<(), Refusal> {
        self.change(raw::checklist_skipped, file)
    }

    /// The skip of the file is withdrawn. That does not send it.
    ///
    /// ```
    /// # use yeqontur::{Checklist, FileState, Refusal};
    /// let mut checklist = Checklist::open(1)?;
    /// assert_eq!(checklist.withdraw(1), Err(Refusal::MarkUnchanged));
    /// checklist.skipped(1)?;
    /// checklist.withdraw(1)?;
    /// assert_eq!(checklist.state(1)?, FileState::Unsent);
    /// # Ok::<(), Refusal>(())
    /// ```
    ///
    /// # Errors
    ///
    /// The first of these that applies: [`Refusal::FileNotListed`] (20), [`Refusal::MarkUnchanged`] (22).
    pub fn withdraw(&mut self, file: u32) -> Result<(), Refusal> {
        self.change(raw::checklist_withdraw, file)
    }

    /// Whether every file was sent and no skip stands. Only what is no checklist is refused, so this never is.
    ///
    /// ```
    /// # use yeqontur::Checklist;
    /// let mut checklist = Checklist::open(2)?;
    /// checklist.sent(2)?;
    /// assert!(!checklist.complete());
    /// checklist.sent(1)?;
    /// assert!(checklist.complete());
    /// # Ok::<(), yeqontur::Refusal>(())
    /// ```
    #[must_use]
    pub fn complete(&self) -> bool {
        let told = raw::checklist_complete(self.0.as_raw());
        let complete = answered(told.refused, 0, told.complete == 1);
        complete.expect("a checklist")
    }

    /// The files that are unsent or have a skip standing, ascending; none exactly if the checklist is complete. There
    /// is room for all files, so this is never refused either.
    ///
    /// ```
    /// # use yeqontur::Checklist;
    /// let mut checklist = Checklist::open(4)?;
    /// for file in [1, 2, 4] {
    ///     checklist.sent(file)?;
    /// }
    /// checklist.skipped(2)?;
    /// assert_eq!(checklist.missing(), [2, 3]);
    /// # Ok::<(), yeqontur::Refusal>(())
    /// ```
    #[must_use]
    pub fn missing(&self) -> Vec<u32> {
        let mut files = vec![0; raw::MOST_FILES];
        let told = raw::checklist_missing(self.0.as_raw(), &mut files);
        let count = answered(told.refused, told.count, told.count);
        files.truncate(count.expect("a checklist, and room for any"));
        files
    }

    /// How many files it has: the highest atom of its rules is the last file's good.
    ///
    /// ```
    /// # use yeqontur::Checklist;
    /// let checklist = Checklist::open(5)?;
    /// assert_eq!(checklist.files(), 5);
    /// # Ok::<(), yeqontur::Refusal>(())
    /// ```
    #[must_use]
    pub fn files(&self) -> u32 {
        let last = self.0.labels().last();
        last.map_or(0, |(good, _)| good / 3)
    }

    /// What the marks of a file say.
    ///
    /// ```
    /// # use yeqontur::{Checklist, FileState, Refusal};
    /// let mut checklist = Checklist::open(2)?;
    /// checklist.sent(1)?;
    /// assert_eq!(checklist.state(1)?, FileState::Sent);
    /// assert_eq!(checklist.state(2)?, FileState::Unsent);
    /// assert_eq!(checklist.state(0), Err(Refusal::FileNotListed));
    /// # Ok::<(), Refusal>(())
    /// ```
    ///
    /// # Errors
    ///
    /// [`Refusal::FileNotListed`] (20).
    pub fn state(&self, file: u32) -> Result<FileState, Refusal> {
        let atoms = self.atoms(file)?;
        let sent = self.0.label(atoms.sent)?.is_in();
        let skipped = self.0.label(atoms.skipped)?.is_in();
        Ok(match (sent, skipped) {
            (_, true) => FileState::Skipped,
            (true, false) => FileState::Sent,
            (false, false) => FileState::Unsent,
        })
    }

    /// Why it is complete or is not: the tree of the last file's good. Where it is not, the tree leads to the first
    /// missing file.
    ///
    /// ```
    /// # use yeqontur::{Because, Checklist};
    /// let mut checklist = Checklist::open(2)?;
    /// checklist.sent(1)?;
    /// let why = checklist.why();
    /// let Because::Stopped(rules) = &why.because else { panic!("it is not complete") };
    /// let sent = checklist.atoms(2)?.sent;
    /// assert_eq!(rules[0].stop.to_string(), format!("needs {sent}"));
    /// assert_eq!(checklist.name(sent).as_deref(), Some("file 2 sent"));
    /// # Ok::<(), yeqontur::Refusal>(())
    /// ```
    #[must_use]
    pub fn why(&self) -> Why {
        let why = self.0.why(3 * self.files());
        why.expect("an atom of the table")
    }

    /// The atoms of a file, to ask the table about.
    ///
    /// ```
    /// # use yeqontur::{Checklist, Refusal};
    /// let checklist = Checklist::open(2)?;
    /// let atoms = checklist.atoms(2)?;
    /// assert_eq!((atoms.sent, atoms.skipped, atoms.good), (4, 5, 6));
    /// assert_eq!(checklist.atoms(3), Err(Refusal::FileNotListed));
    /// # Ok::<(), Refusal>(())
    /// ```
    ///
    /// # Errors
    ///
    /// [`Refusal::FileNotListed`] (20).
    pub fn atoms(&self, file: u32) -> Result<Atoms, Refusal> {
        if !(1..=self.files()).contains(&file) {
            return Err(Refusal::FileNotListed);
        }
        let good = 3 * file;
        Ok(Atoms {
            sent: good - 2,
            skipped: good - 1,
            good,
        })
    }

    /// What an atom of the checklist stands for; none for any other atom.
    ///
    /// ```
    /// # use yeqontur::Checklist;
    /// let checklist = Checklist::open(2)?;
    /// assert_eq!(checklist.name(0).as_deref(), Some("opened"));
    /// assert_eq!(checklist.name(1).as_deref(), Some("file 1 sent"));
    /// assert_eq!(checklist.name(3).as_deref(), Some("file 1 good"));
    /// assert_eq!(checklist.name(6).as_deref(), Some("complete"));
    /// assert_eq!(checklist.name(7), None);
    /// # Ok::<(), yeqontur::Refusal>(())
    /// ```
    #[must_use]
    pub fn name(&self, atom: u32) -> Option<String> {
        let last = 3 * self.files();
        match atom {
            0 => Some("opened".to_string()),
            _ if atom == last => Some("complete".to_string()),
            _ if atom > last => None,
            _ => {
                let part = ["good", "sent", "skipped"][atom as usize % 3];
                Some(format!("file {} {part}", atom.div_ceil(3)))
            }
        }
    }

    /// The rules and their labels; for instance to be saved.
    ///
    /// ```
    /// # use yeqontur::Checklist;
    /// let checklist = Checklist::open(2)?;
    /// let rules: Vec<String> = checklist.table().rules().map(|rule| rule.to_string()).collect();
    /// assert_eq!(rules, ["0 <", "3 < 0, 1, not 2", "6 < 3, 4, not 5"]);
    /// # Ok::<(), yeqontur::Refusal>(())
    /// ```
    #[must_use]
    pub fn table(&self) -> &Table {
        &self.0
    }

    /// The table alone, which may take other rules; with one of them it is no checklist any more.
    ///
    /// ```
    /// # use yeqontur::{Checklist, Refusal};
    /// let mut table = Checklist::open(2)?.into_table();
    /// table.add(100, &[6], &[])?; // a rule over "complete"
    /// assert_eq!(Checklist::try_from(table), Err(Refusal::TableUnsound));
    /// # Ok::<(), Refusal>(())
    /// ```
    #[must_use = "the checklist is used up, and the table is what is left of it"]
    pub fn into_table(self) -> Table {
        self.0
    }

    /// A refusal hands the table back as it came.
    fn change(
        &mut self,
        call: fn(&raw::Table, u32) -> raw::Accepted,
        file: u32,
    ) -> Result<(), Refusal> {
        let told = call(self.0.as_raw(), file);
        self.0 = Table(told.table);
        answered(told.refused, 0, ())
    }
}

/// `complete: yes`, or `complete: no.` and a sentence for each missing file.
///
/// ```
/// # use yeqontur::Checklist;
/// let mut checklist = Checklist::open(2)?;
/// checklist.skipped(1)?;
/// let words = "complete: no. File 1 was skipped. File 2 has not been sent.";
/// assert_eq!(checklist.to_string(), words);
/// checklist.withdraw(1)?;
/// checklist.sent(1)?;
/// checklist.sent(2)?;
/// assert_eq!(checklist.to_string(), "complete: yes");
/// # Ok::<(), yeqontur::Refusal>(())
/// ```
impl fmt::Display for Checklist {
    fn fmt(&self, f: &mut fmt::Formatter<'_>) -> fmt::Result {
        if self.complete() {
            return f.write_str("complete: yes");
        }
        f.write_str("complete: no.")?;
        for file in self.missing() {
            let state = self.state(file).expect("a file on the list");
            write!(f, " File {file} {state}.")?;
        }
        Ok(())
    }
}
