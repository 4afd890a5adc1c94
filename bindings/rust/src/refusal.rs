//! Refusals: a case for each number of the specification that a call answers. Words and advice stand once, in the list
//! of `include/yeqontur.h`; the build script reads them from there.

use std::fmt;

/// Why a call was refused. 13 and 14 belong to sheets and never come from a call.
///
/// More cases may come, so a `match` has a further arm; every refusal, also one that a program does not know, prints as
/// a sentence that says what is the matter and what to do.
///
/// ```
/// use yeqontur::{Refusal, Table};
///
/// let mut table = Table::new();
/// table.add(1, &[2], &[])?;
/// let slot = match table.add(1, &[2], &[]) {
///     Ok(slot) => slot,
///     Err(Refusal::SameRule) => table.justifications(1)?[0], // it is there already
///     Err(other) => return Err(other),
/// };
/// assert_eq!(slot, 0);
/// # Ok::<(), yeqontur::Refusal>(())
/// ```
#[non_exhaustive]
#[derive(Clone, Copy, PartialEq, Eq, Hash, Debug)]
pub enum Refusal {
    /// 1: the head of a rule, to be added or to replace another, is not below 256.
    HeadTooLarge,
    /// 2: the two lists of such a rule have more than 8 entries together.
    TooManyEntries,
    /// 3: an entry of such a rule is not below 256.
    EntryTooLarge,
    /// 4: an atom stands twice in one list of such a rule. It may stand once in each.
    RepeatedEntry,
    /// 5: a rule with this head, muted or not, other than the one to be replaced, has the same atoms in each list, in
    /// whatever order. A muted one gives nothing until it is unmuted, so a label may stay out after this refusal.
    SameRule,
    /// 6: all 256 slots hold a rule. Of additions alone: where a rule is replaced, the new one takes its slot.
    TableFull,
    /// 7: with this rule an atom would depend on its own negation. Muted rules are rules of a loop too, so that none is
    /// closed where they are unmuted.
    NegativeCycle,
    /// 8: a slot that a call names is not below 256.
    SlotTooLarge,
    /// 9: a slot that a call names holds no rule.
    SlotFree,
    /// 10: an atom that a question names is not below 256.
    AtomTooLarge,
    /// 11: the list or the file does not fit into the buffer that was lent.
    BufferTooShort {
        /// How many entries, or bytes of a file, the buffer needs.
        needed: usize,
    },
    /// 12: a reason was asked for, and the atom is out or absent.
    AtomNotIn,
    /// 15: the fields handed in are not a sound table. Also of a table in which a rule's list does not ascend, and of a
    /// sound one that is no checklist where one is asked for; one with a muted rule is none.
    TableUnsound,
    /// 16: of a file, as the next three are: it is not 1 to 12 blocks long.
    WrongLength,
    /// 17: a block's checksum is not that of its bytes. Any one changed byte of a saved file is told so.
    WrongChecksum,
    /// 18: every checksum is right, but a block's index, block count or record count is not one of its place in a file
    /// of this length. Likely blocks are missing, or are those of other files.
    WrongBlock,
    /// 19: every checksum, index and count is right, but the records are not the rules of a table by ascending slots,
    /// or a byte that is not used is not 0. Likely another version or another program wrote the file.
    WrongRecord,
    /// 20: of a checklist: the file number is 0, or more than it has files.
    FileNotListed,
    /// 21: a checklist is opened for 1 to 60 files.
    WrongFileCount,
    /// 22: sent or skipped already, or no skip to withdraw: the call would change nothing.
    MarkUnchanged,
}

impl Refusal {
    /// Every refusal that this version knows, by number; of 11 the one that needs no entry stands for all. For instance
    /// to look through what has been translated.
    ///
    /// ```
    /// # use yeqontur::Refusal;
    /// let numbers: Vec<u32> = Refusal::ALL.iter().map(|refusal| refusal.number()).collect();
    /// assert!(numbers.is_sorted());
    /// assert!(numbers.contains(&7) && !numbers.contains(&13));
    /// ```
    pub const ALL: &[Refusal] = &[
        Refusal::HeadTooLarge,
        Refusal::TooManyEntries,
        Refusal::EntryTooLarge,
        Refusal::RepeatedEntry,
        Refusal::SameRule,
        Refusal::TableFull,
        Refusal::NegativeCycle,
        Refusal::SlotTooLarge,
        Refusal::SlotFree,
        Refusal::AtomTooLarge,
        Refusal::BufferTooShort { needed: 0 },
        Refusal::AtomNotIn,
        Refusal::TableUnsound,
        Refusal::WrongLength,
        Refusal::WrongChecksum,
        Refusal::WrongBlock,
        Refusal::WrongRecord,
        Refusal::FileNotListed,
        Refusal::WrongFileCount,
        Refusal::MarkUnchanged,
    ];

    /// The refusal of a number, which 0 is not. `needed` goes with 11.
    pub(crate) fn from_number(number: u32, needed: usize) -> Option<Refusal> {
        match number {
            0 => None,
            11 => Some(Refusal::BufferTooShort { needed }),
            _ => {
                let mut all = Refusal::ALL.iter().copied();
                let known = all.find(|r| r.number() == number);
                Some(known.unwrap_or_else(|| panic!("refusal {number}: crate and library differ")))
            }
        }
    }

    /// Its number, the same for every caller: in C it is `refused` of an answer.
    ///
    /// ```
    /// # use yeqontur::Refusal;
    /// assert_eq!(Refusal::HeadTooLarge.number(), 1);
    /// assert_eq!(Refusal::BufferTooShort { needed: 5 }.number(), 11);
    /// assert_eq!(Refusal::TableUnsound.number(), 15);
    /// ```
    #[must_use]
    pub fn number(self) -> u32 {
        match self {
            Refusal::HeadTooLarge => 1,
            Refusal::TooManyEntries => 2,
            Refusal::EntryTooLarge => 3,
            Refusal::RepeatedEntry => 4,
            Refusal::SameRule => 5,
            Refusal::TableFull => 6,
            Refusal::NegativeCycle => 7,
            Refusal::SlotTooLarge => 8,
            Refusal::SlotFree => 9,
            Refusal::AtomTooLarge => 10,
            Refusal::BufferTooShort { .. } => 11,
            Refusal::AtomNotIn => 12,
            Refusal::TableUnsound => 15,
            Refusal::WrongLength => 16,
            Refusal::WrongChecksum => 17,
            Refusal::WrongBlock => 18,
            Refusal::WrongRecord => 19,
            Refusal::FileNotListed => 20,
            Refusal::WrongFileCount => 21,
            Refusal::MarkUnchanged => 22,
        }
    }

    /// What is the matter, in the words of the header.
    ///
    /// ```
    /// # use yeqontur::Refusal;
    /// assert_eq!(Refusal::TableFull.words(), "no slot is free");
    /// ```
    #[must_use]
    pub fn words(self) -> &'static str {
        words(self.number()).unwrap_or_default()
    }

    /// What a person can do about it.
    ///
    /// ```
    /// # use yeqontur::Refusal;
    /// let advice = Refusal::TableFull.advice();
    /// assert_eq!(advice, "remove a rule that is no longer needed, or open a second table");
    /// ```
    #[must_use]
    pub fn advice(self) -> &'static str {
        advice(self.number()).unwrap_or_default()
    }
}

/// The refusals as the header lists them: number, words and advice.
const LIST: &[(u32, &str, &str)] = include!(concat!(env!("OUT_DIR"), "/refusals.rs"));

/// What the header's list has of a number.
fn told(number: u32) -> Option<(u32, &'static str, &'static str)> {
    let mut list = LIST.iter();
    list.find(|(listed, ..)| *listed == number).copied()
}

/// What is the matter where a call, or a line of a sheet (13 and 14), is refused with this number; none if no refusal
/// has it. For a program that has the number alone, from C or from what a sheet printed.
///
/// ```
/// assert_eq!(yeqontur::words(9), Some("the slot holds no rule"));
/// assert_eq!(yeqontur::words(14), Some("the line has more than 120 bytes"));
/// assert_eq!(yeqontur::words(0), None);
/// ```
#[must_use]
pub fn words(number: u32) -> Option<&'static str> {
    told(number).map(|(_, words, _)| words)
}

/// What a person can do about the refusal of this number; none if no refusal has it.
///
/// ```
/// assert_eq!(yeqontur::advice(8), Some("pass a slot that an addition answered"));
/// assert_eq!(yeqontur::advice(0), None);
/// ```
#[must_use]
pub fn advice(number: u32) -> Option<&'static str> {
    told(number).map(|(_, _, advice)| advice)
}

/// Its number, its words and its advice.
///
/// ```
/// # use yeqontur::{List, Table};
/// let mut table = Table::new();
/// let refusal = table.remove(0).unwrap_err();
/// let sentence = "refused 9: the slot holds no rule; \
///                 look at the rules held now: this one was removed, or never added";
/// assert_eq!(refusal.to_string(), sentence);
///
/// table.add(1, &[], &[])?;
/// let refusal = table.list_into(List::Reason, 1, &mut []).unwrap_err();
/// assert!(refusal.to_string().starts_with("refused 11: the buffer is too short (1 needed); "));
/// # Ok::<(), yeqontur::Refusal>(())
/// ```
impl fmt::Display for Refusal {
    fn fmt(&self, f: &mut fmt::Formatter<'_>) -> fmt::Result {
        write!(f, "refused {}: {}", self.number(), self.words())?;
        if let Refusal::BufferTooShort { needed } = self {
            write!(f, " ({needed} needed)")?;
        }
        write!(f, "; {}", self.advice())
    }
}

/// An error among others: `?` hands it on.
///
/// ```
/// # use yeqontur::{Refusal, Table};
/// fn with_a_fact(atom: &str) -> Result<Table, Box<dyn std::error::Error>> {
///     let mut table = Table::new();
///     table.add(atom.parse()?, &[], &[])?;
///     Ok(table)
/// }
///
/// assert!(with_a_fact("1").is_ok());
/// let error = with_a_fact("256").unwrap_err();
/// assert_eq!(error.downcast_ref(), Some(&Refusal::HeadTooLarge));
/// ```
impl std::error::Error for Refusal {}
