//! The table and its calls.

use crate::raw::{self, List};
use crate::{Label, Refusal, Validity};

/// A table of rules with the labels of their atoms. It is always sound: it starts empty or as it was saved, calls keep
/// it sound, and raw numbers become one only if they are sound. It is a few kilobytes, so a copy is asked for by name.
///
/// Two tables are equal if they have the same rules in the same slots, and the same of them muted.
///
/// ```
/// use yeqontur::{Label, Table};
///
/// let mut table = Table::new();
/// table.add(1, &[2], &[3])?; // 1 if 2, and not 3
/// table.add(2, &[], &[])?; // 2
/// assert_eq!(table.label(1)?, Label::In { depth: 2, slot: 0 });
/// let before = table.clone();
/// let slot = table.add(3, &[], &[])?; // 3
/// assert_eq!(table.label(1)?, Label::Out);
/// table.remove(slot)?;
/// assert_eq!(table, before);
/// # Ok::<(), yeqontur::Refusal>(())
/// ```
#[derive(Clone, PartialEq, Eq, Hash, Debug)]
pub struct Table(pub(crate) raw::Table);

/// The refusal that the numbers say, or the value.
pub(crate) fn answered<T>(refused: u32, needed: usize, value: T) -> Result<T, Refusal> {
    match Refusal::from_number(refused, needed) {
        Some(refusal) => Err(refusal),
        None => Ok(value),
    }
}

/// The empty table.
///
/// ```
/// # use yeqontur::Table;
/// assert_eq!(Table::default(), Table::new());
/// ```
impl Default for Table {
    fn default() -> Table {
        Table::new()
    }
}

/// Any raw numbers, for instance ones that were stored: refused (15) unless they are sound.
///
/// ```
/// # use yeqontur::{Refusal, Table};
/// let mut table = Table::new();
/// table.add(1, &[], &[])?;
/// let mut fields = *table.as_raw();
/// assert_eq!(Table::try_from(fields), Ok(table));
/// fields.words[0] = 3; // no slot has this state
/// assert_eq!(Table::try_from(fields), Err(Refusal::TableUnsound));
/// # Ok::<(), yeqontur::Refusal>(())
/// ```
impl TryFrom<raw::Table> for Table {
    type Error = Refusal;

    fn try_from(fields: raw::Table) -> Result<Table, Refusal> {
        answered(raw::label(&fields, 0).refused, 0, Table(fields))
    }
}

impl Table {
    /// The empty table.
    ///
    /// ```
    /// # use yeqontur::{Label, Table};
    /// let table = Table::new();
    /// assert_eq!(table.rules().count(), 0);
    /// assert_eq!(table.label(1), Ok(Label::Absent));
    /// ```
    #[must_use]
    pub fn new() -> Table {
        Table(raw::empty())
    }

    /// The numbers, as the library has them.
    ///
    /// ```
    /// # use yeqontur::{raw, Table};
    /// let mut table = Table::new();
    /// assert_eq!(table.as_raw(), &raw::empty());
    /// table.add(5, &[], &[])?;
    /// assert_eq!(raw::rule(table.as_raw(), 0).head, 5);
    /// # Ok::<(), yeqontur::Refusal>(())
    /// ```
    #[must_use]
    pub fn as_raw(&self) -> &raw::Table {
        &self.0
    }

    /// Adds the rule that the head is in if every positive atom is in and no negative one is; with both lists empty, a
    /// fact. It is not muted. Answers its slot, the lowest that was free. A refused call leaves the table as it was.
    ///
    /// The lists may come in any order, and the table keeps each ascending: a rule with the same head and the same
    /// atoms in each list is the same rule, and refused (5), also where the one that is held is muted.
    ///
    /// ```
    /// # use yeqontur::{Refusal, Table};
    /// let mut table = Table::new();
    /// assert_eq!(table.add(5, &[3, 1, 2], &[]), Ok(0));
    /// assert_eq!(table.add(5, &[2, 3, 1], &[]), Err(Refusal::SameRule));
    /// assert_eq!(table.rule(0)?.positives, [1, 2, 3]);
    /// # Ok::<(), Refusal>(())
    /// ```
    ///
    /// # Errors
    ///
    /// The first of these that applies: [`Refusal::HeadTooLarge`] (1), [`Refusal::TooManyEntries`] (2),
    /// [`Refusal::EntryTooLarge`] (3), [`Refusal::RepeatedEntry`] (4), [`Refusal::SameRule`] (5),
    /// [`Refusal::TableFull`] (6), [`Refusal::NegativeCycle`] (7).
    pub fn add(&mut self, head: u32, positives: &[u32], negatives: &[u32]) -> Result<u32, Refusal> {
        let change = raw::add(&self.0, head, positives, negatives);
        self.0 = change.table;
        answered(change.refused, 0, change.slot)
    }

    /// Frees a slot; every other slot keeps its rule, and whether that is muted. A refused call leaves the table as it
    /// was.
    ///
    /// ```
    /// # use yeqontur::{Label, Refusal, Table};
    /// let mut table = Table::new();
    /// let slot = table.add(1, &[], &[])?;
    /// table.remove(slot)?;
    /// assert_eq!(table.label(1)?, Label::Absent);
    /// assert_eq!(table.remove(slot), Err(Refusal::SlotFree));
    /// # Ok::<(), Refusal>(())
    /// ```
    ///
    /// # Errors
    ///
    /// The first of these that applies: [`Refusal::SlotTooLarge`] (8), [`Refusal::SlotFree`] (9).
    pub fn remove(&mut self, slot: u32) -> Result<(), Refusal> {
        let change = raw::remove(&self.0, slot);
        self.0 = change.table;
        answered(change.refused, 0, ())
    }

    /// Replaces the rule in a slot by another, in one step. Every other slot keeps its rule, and whether that is muted.
    /// A refused call leaves the table as it was, the old rule included.
    ///
    /// The new rule is judged against the table without the old one, and takes its slot: a rule may be replaced by
    /// itself, one that another slot has is refused (5), and a full table has room for it. It is not muted, whether the
    /// old one was or not: a muted rule that is replaced by itself is unmuted.
    ///
    /// ```
    /// # use yeqontur::{Refusal, Table};
    /// let mut table = Table::new();
    /// table.add(1, &[2], &[])?;
    /// table.add(2, &[], &[3])?;
    /// assert_eq!(table.replace(1, 2, &[], &[1]), Err(Refusal::NegativeCycle));
    /// assert_eq!(table.rule(1)?.negatives, [3]);
    /// table.replace(1, 2, &[], &[4])?;
    /// assert_eq!(table.rule(1)?.negatives, [4]);
    /// # Ok::<(), Refusal>(())
    /// ```
    ///
    /// # Errors
    ///
    /// The first of these that applies: [`Refusal::SlotTooLarge`] (8), [`Refusal::SlotFree`] (9),
    /// [`Refusal::HeadTooLarge`] (1), [`Refusal::TooManyEntries`] (2), [`Refusal::EntryTooLarge`] (3),
    /// [`Refusal::RepeatedEntry`] (4), [`Refusal::SameRule`] (5), [`Refusal::NegativeCycle`] (7).
    pub fn replace(
        &mut self,
        slot: u32,
        head: u32,
        positives: &[u32],
        negatives: &[u32],
    ) -> Result<(), Refusal> {
        let told = raw::replace(&self.0, slot, head, positives, negatives);
        self.0 = told.table;
        answered(told.refused, 0, ())
    }

    /// Mutes the rule in a slot: it stays there and gives nothing, until it is unmuted. What is muted already may be
    /// muted again. A refused call leaves the table as it was.
    ///
    /// Labels, depths and supporting slots, what spoils a rule, reasons and repercussions go by the rules that are not
    /// muted. A muted rule counts where it matters what is held: its atoms occur, so an atom whose rules are all muted
    /// is out; justifications and consequences have it; the same rule is refused (5), and so is one that would close a
    /// loop through a negation with it (7).
    ///
    /// ```
    /// # use yeqontur::{Label, Refusal, Table, Validity};
    /// let mut table = Table::new();
    /// table.add(1, &[2], &[])?;
    /// table.add(2, &[], &[])?;
    /// let before = table.clone();
    /// table.mute(1)?;
    /// assert!(table.rule(1)?.muted);
    /// assert_eq!(table.label(2)?, Label::Out);
    /// assert_eq!(table.label(1)?, Label::Out);
    /// assert_eq!(table.spoiler(1)?, Validity::Muted);
    /// assert_eq!(table.add(2, &[], &[]), Err(Refusal::SameRule));
    /// table.unmute(1)?;
    /// assert_eq!(table, before);
    /// # Ok::<(), Refusal>(())
    /// ```
    ///
    /// # Errors
    ///
    /// The first of these that applies: [`Refusal::SlotTooLarge`] (8), [`Refusal::SlotFree`] (9).
    pub fn mute(&mut self, slot: u32) -> Result<(), Refusal> {
        self.set_muted(slot, 1)
    }

    /// Unmutes the rule in a slot: it counts for all labels again, as if it had never been muted. Since muted rules
    /// count for loops, this never meets 7. What is not muted may be unmuted. A refused call leaves the table as it
    /// was.
    ///
    /// ```
    /// # use yeqontur::{Label, Refusal, Table};
    /// let mut table = Table::new();
    /// table.add(1, &[], &[])?;
    /// table.mute(0)?;
    /// assert_eq!(table.label(1)?, Label::Out);
    /// table.unmute(0)?;
    /// assert_eq!(table.label(1)?, Label::In { depth: 1, slot: 0 });
    /// assert_eq!(table.unmute(1), Err(Refusal::SlotFree));
    /// # Ok::<(), Refusal>(())
    /// ```
    ///
    /// # Errors
    ///
    /// The first of these that applies: [`Refusal::SlotTooLarge`] (8), [`Refusal::SlotFree`] (9).
    pub fn unmute(&mut self, slot: u32) -> Result<(), Refusal> {
        self.set_muted(slot, 0)
    }

    /// The label of an atom.
    ///
    /// ```
    /// # use yeqontur::{Label, Refusal, Table};
    /// let mut table = Table::new();
    /// table.add(1, &[2], &[])?; // 1 if 2
    /// assert_eq!(table.label(1)?, Label::Out);
    /// assert_eq!(table.label(3)?, Label::Absent);
    /// assert_eq!(table.label(256), Err(Refusal::AtomTooLarge));
    /// # Ok::<(), Refusal>(())
    /// ```
    ///
    /// # Errors
    ///
    /// [`Refusal::AtomTooLarge`] (10).
    pub fn label(&self, atom: u32) -> Result<Label, Refusal> {
        let told = raw::label(&self.0, atom);
        let label = Label::from_numbers(told.state, told.depth, told.slot);
        answered(told.refused, 0, label)
    }

    /// Whether the rule in the slot is valid, or the first entry that stops it, the positive list read first and each
    /// list ascending; of a muted rule, that it is muted.
    ///
    /// ```
    /// # use yeqontur::{Refusal, Side, Table, Validity};
    /// let mut table = Table::new();
    /// table.add(1, &[3, 2], &[])?; // 1 if 3 and 2
    /// table.add(2, &[], &[])?; // 2
    /// let needs_3 = Validity::Spoiled { side: Side::Positive, place: 1, atom: 3 };
    /// assert_eq!(table.spoiler(0)?, needs_3);
    /// assert_eq!(table.spoiler(1)?, Validity::Valid);
    /// assert_eq!(table.spoiler(2), Err(Refusal::SlotFree));
    /// # Ok::<(), Refusal>(())
    /// ```
    ///
    /// # Errors
    ///
    /// The first of these that applies: [`Refusal::SlotTooLarge`] (8), [`Refusal::SlotFree`] (9).
    pub fn spoiler(&self, slot: u32) -> Result<Validity, Refusal> {
        let told = raw::spoiler(&self.0, slot);
        let validity = Validity::from_numbers(told.spoiled, told.place, told.atom);
        answered(told.refused, 0, validity)
    }

    /// The slots of the rules with this head, muted ones among them, ascending.
    ///
    /// ```
    /// # use yeqontur::Table;
    /// let mut table = Table::new();
    /// table.add(1, &[2], &[])?;
    /// table.add(2, &[], &[])?;
    /// table.add(1, &[], &[3])?;
    /// assert_eq!(table.justifications(1)?, [0, 2]);
    /// assert_eq!(table.justifications(3)?, []);
    /// # Ok::<(), yeqontur::Refusal>(())
    /// ```
    ///
    /// # Errors
    ///
    /// [`Refusal::AtomTooLarge`] (10).
    pub fn justifications(&self, atom: u32) -> Result<Vec<u32>, Refusal> {
        self.list(List::Justifications, atom)
    }

    /// The heads of the rules with this atom as an entry, muted ones among them, ascending.
    ///
    /// ```
    /// # use yeqontur::Table;
    /// let mut table = Table::new();
    /// table.add(5, &[2], &[])?;
    /// table.add(4, &[], &[2])?;
    /// assert_eq!(table.consequences(2)?, [4, 5]);
    /// assert_eq!(table.consequences(5)?, []);
    /// # Ok::<(), yeqontur::Refusal>(())
    /// ```
    ///
    /// # Errors
    ///
    /// [`Refusal::AtomTooLarge`] (10).
    pub fn consequences(&self, atom: u32) -> Result<Vec<u32>, Refusal> {
        self.list(List::Consequences, atom)
    }

    /// All atoms whose label rests on this one, directly or through others, ascending.
    ///
    /// ```
    /// # use yeqontur::Table;
    /// let mut table = Table::new();
    /// table.add(1, &[], &[])?; // 1
    /// table.add(2, &[1], &[])?; // 2 if 1
    /// table.add(3, &[2], &[])?; // 3 if 2
    /// assert_eq!(table.repercussions(1)?, [2, 3]);
    /// assert_eq!(table.repercussions(3)?, []);
    /// # Ok::<(), yeqontur::Refusal>(())
    /// ```
    ///
    /// # Errors
    ///
    /// [`Refusal::AtomTooLarge`] (10).
    pub fn repercussions(&self, atom: u32) -> Result<Vec<u32>, Refusal> {
        self.list(List::Repercussions, atom)
    }

    /// Why the atom is in: the slots of the rules that hold it up, by depth, so facts first and its own rule last. A
    /// tree of the same, also of an atom that is not in, is [`Table::why`].
    ///
    /// ```
    /// # use yeqontur::{Refusal, Table};
    /// let mut table = Table::new();
    /// table.add(2, &[1], &[])?; // 2 if 1
    /// table.add(1, &[], &[])?; // 1
    /// assert_eq!(table.reason(2)?, [1, 0]);
    /// assert_eq!(table.reason(3), Err(Refusal::AtomNotIn));
    /// # Ok::<(), Refusal>(())
    /// ```
    ///
    /// # Errors
    ///
    /// The first of these that applies: [`Refusal::AtomTooLarge`] (10), [`Refusal::AtomNotIn`] (12).
    pub fn reason(&self, atom: u32) -> Result<Vec<u32>, Refusal> {
        self.list(List::Reason, atom)
    }

    /// Writes a list from the start of a lent buffer and answers how many entries it has; later entries stay. Nothing
    /// is allocated, and a buffer that is too short stays as it was.
    ///
    /// ```
    /// # use yeqontur::{List, Refusal, Table};
    /// let mut table = Table::new();
    /// table.add(1, &[], &[])?;
    /// table.add(1, &[2], &[])?;
    /// let mut buffer = [9; 3];
    /// assert_eq!(table.list_into(List::Justifications, 1, &mut buffer)?, 2);
    /// assert_eq!(buffer, [0, 1, 9]);
    /// let told = table.list_into(List::Justifications, 1, &mut buffer[..1]);
    /// assert_eq!(told, Err(Refusal::BufferTooShort { needed: 2 }));
    /// # Ok::<(), Refusal>(())
    /// ```
    ///
    /// # Errors
    ///
    /// The first of these that applies: [`Refusal::AtomTooLarge`] (10), of a reason [`Refusal::AtomNotIn`] (12),
    /// [`Refusal::BufferTooShort`] (11).
    pub fn list_into(&self, which: List, atom: u32, buffer: &mut [u32]) -> Result<usize, Refusal> {
        let told = raw::list(which, &self.0, atom, buffer);
        answered(told.refused, told.count, told.count)
    }

    /// The table as the bytes of a file: the rules with their slots, and which of them are muted, one block of 512
    /// bytes for each 22 rules begun, at least one. Labels are not in it. Equal tables have equal files. To keep it on
    /// disk, see [`Table::save_to`].
    ///
    /// ```
    /// # use yeqontur::{Refusal, Table};
    /// let mut table = Table::new();
    /// table.add(1, &[2], &[3])?;
    /// let file = table.save();
    /// assert_eq!(Table::load(&file), Ok(table));
    /// assert_eq!(Table::load(&file[1..]), Err(Refusal::WrongLength));
    /// # Ok::<(), Refusal>(())
    /// ```
    #[must_use = "the bytes are handed to the caller, and nothing is kept elsewhere"]
    pub fn save(&self) -> Vec<u8> {
        let mut bytes = vec![0; raw::FILE_BYTES];
        let told = raw::save(&self.0, &mut bytes);
        let count = answered(told.refused, told.count, told.count);
        bytes.truncate(count.expect("a sound table, and room for any"));
        bytes
    }

    /// The table that was saved as these bytes: each rule stands in its slot again, muted if it was, and all labels are
    /// found anew. Any bytes may come: those that `save` does not write of some table are refused.
    ///
    /// ```
    /// # use yeqontur::{Refusal, Table};
    /// let mut table = Table::new();
    /// table.add(1, &[], &[])?;
    /// let mut file = table.save();
    /// assert_eq!(Table::load(&file)?.label(1), table.label(1));
    /// file[40] ^= 1;
    /// assert_eq!(Table::load(&file), Err(Refusal::WrongChecksum));
    /// # Ok::<(), Refusal>(())
    /// ```
    ///
    /// # Errors
    ///
    /// The first of these that applies: [`Refusal::WrongLength`] (16), [`Refusal::WrongChecksum`] (17),
    /// [`Refusal::WrongBlock`] (18), [`Refusal::WrongRecord`] (19).
    pub fn load(bytes: &[u8]) -> Result<Table, Refusal> {
        let told = raw::load(bytes);
        answered(told.refused, 0, Table(told.table))
    }

    /// 0 unmutes, and any other number mutes.
    fn set_muted(&mut self, slot: u32, muted: u32) -> Result<(), Refusal> {
        let told = raw::mute(&self.0, slot, muted);
        self.0 = told.table;
        answered(told.refused, 0, ())
    }

    /// No list is longer than there are slots or atoms.
    fn list(&self, which: List, atom: u32) -> Result<Vec<u32>, Refusal> {
        let mut buffer = vec![0; raw::SLOTS.max(raw::ATOMS)];
        let count = self.list_into(which, atom, &mut buffer)?;
        buffer.truncate(count);
        Ok(buffer)
    }
}
