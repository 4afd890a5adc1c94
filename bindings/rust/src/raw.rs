//! The boundary: the functions of `include/yeqontur.h`, and safe functions over them. The only unsafe code.
//!
//! Every function takes any numbers, lists, buffers and bytes of a table or a file, keeps nothing and writes at most
//! the lent buffer. A slice crosses as a pointer and the length that it really has, so that each call below is safe.
//!
//! A table crosses by value, a copy of some kilobytes. The safe functions are not inlined, so that this copy is never
//! part of a caller's frame: one that calls itself, as the telling of a tree does, would run out of stack.
//!
//! The structs are those of the header, field for field, and change only with its layout; so they may be built by hand
//! and taken apart whole. In every answer `refused` is 0, or the number of a refusal ([`crate::words`]); the table that
//! was handed in is lent, and where a call changes it, the new one is in the answer. Most programs do better with
//! [`crate::Table`] and [`crate::Checklist`], which keep the table themselves.
//!
//! "Asks" lists the refusals that a call can meet, in the order in which it asks; the first that applies is told.
//!
//! ```
//! use yeqontur::{raw, words};
//!
//! let one = raw::add(&raw::empty(), 1, &[], &[]);
//! assert_eq!((one.refused, one.slot), (0, 0));
//! let again = raw::add(&one.table, 1, &[], &[]);
//! assert_eq!(words(again.refused), Some("the table has the same rule already"));
//! assert_eq!(again.table, one.table);
//! ```

#![allow(unsafe_code)]

/// How many rules a table has room for: slots are numbered from 0 to 255.
///
/// ```
/// use yeqontur::{raw::SLOTS, Refusal, Table};
///
/// let mut table = Table::new();
/// for slot in 0..SLOTS as u32 {
///     assert_eq!(table.add(slot, &[], &[]), Ok(slot));
/// }
/// assert_eq!(table.add(0, &[1], &[]), Err(Refusal::TableFull));
/// ```
pub const SLOTS: usize = 256;

/// How many atoms there are: they are numbered from 0 to 255.
///
/// ```
/// use yeqontur::{raw::ATOMS, Label, Refusal, Table};
///
/// let atoms = ATOMS as u32;
/// assert_eq!(Table::new().label(atoms - 1), Ok(Label::Absent));
/// assert_eq!(Table::new().label(atoms), Err(Refusal::AtomTooLarge));
/// ```
pub const ATOMS: usize = 256;

/// The layout of the structs below, by the header's number: it changes when the size or the place of a field does, or
/// what a call takes.
///
/// ```
/// // The library that is linked is the one that this crate was written for.
/// assert_eq!(yeqontur::layout(), yeqontur::raw::LAYOUT);
/// ```
pub const LAYOUT: u32 = 2;

/// The most entries of a rule, both lists together.
///
/// ```
/// use yeqontur::{raw::ENTRIES, Refusal, Table};
///
/// let entries: Vec<u32> = (1..=ENTRIES as u32).collect();
/// let mut table = Table::new();
/// assert_eq!(table.add(0, &entries, &[]), Ok(0));
/// assert_eq!(table.add(0, &entries, &[9]), Err(Refusal::TooManyEntries));
/// ```
pub const ENTRIES: usize = 8;

/// The most files of a checklist.
///
/// ```
/// use yeqontur::{raw::MOST_FILES, Checklist, Refusal};
///
/// let most = MOST_FILES as u32;
/// assert_eq!(Checklist::open(most)?.files(), most);
/// assert_eq!(Checklist::open(most + 1), Err(Refusal::WrongFileCount));
/// # Ok::<(), Refusal>(())
/// ```
pub const MOST_FILES: usize = 60;

/// The most bytes that a saved table has: 256 rules, 22 to a block, are 12 blocks of 512 bytes.
///
/// ```
/// use yeqontur::{raw::FILE_BYTES, Table};
///
/// let mut table = Table::new();
/// assert_eq!(table.save().len(), 512);
/// for atom in 0..256 {
///     table.add(atom, &[], &[])?;
/// }
/// assert_eq!(table.save().len(), FILE_BYTES);
/// # Ok::<(), yeqontur::Refusal>(())
/// ```
pub const FILE_BYTES: usize = 6144;

/// The most numbers that [`labels`] writes: four for each atom.
///
/// ```
/// use yeqontur::{raw, Table};
///
/// let mut table = Table::new();
/// for atom in 0..256 {
///     table.add(atom, &[], &[])?;
/// }
/// let mut numbers = [0; raw::LABEL_NUMBERS];
/// assert_eq!(raw::labels(table.as_raw(), &mut numbers).count, raw::LABEL_NUMBERS);
/// # Ok::<(), yeqontur::Refusal>(())
/// ```
pub const LABEL_NUMBERS: usize = 4 * ATOMS;

/// Any numbers are a table; question 15 (specification 3.4) says whether it is sound. Two sound tables with the same
/// rules in the same slots, the same of them muted, have the same numbers, and those of the empty table are all 0.
///
/// What they say is told by the calls: rules by [`rule`], labels by [`label`] and [`labels`]. A program that reads the
/// numbers itself reads another layout wrong.
///
/// ```
/// # use yeqontur::raw;
/// let mut table = raw::add(&raw::empty(), 1, &[], &[]).table;
/// assert_eq!(raw::label(&table, 1).refused, 0);
/// table.words[0] = 3; // no slot has this state
/// assert_eq!(raw::label(&table, 1).refused, 15);
/// ```
#[repr(C)]
#[derive(Clone, Copy, PartialEq, Eq, Hash, Debug)]
pub struct Table {
    /// Fourteen numbers for each slot, in their order: state (0 free, 1 with a rule, 2 with a muted one), head, how
    /// many positive entries, how many negative ones, eight entries (the positive list, then the negative one, then
    /// zeros), the depth of the head if this slot supports it, and the place of the entry that spoils the rule, from 1
    /// over both lists. What there is nothing of is 0.
    pub words: [u16; Table::WORDS],
}

impl Table {
    /// How many numbers a table has.
    ///
    /// ```
    /// # use yeqontur::raw;
    /// let table = raw::Table { words: [0; raw::Table::WORDS] };
    /// assert_eq!(table, raw::empty());
    /// ```
    pub const WORDS: usize = 14 * SLOTS;

    /// How many bytes a table has.
    ///
    /// ```
    /// # use yeqontur::raw;
    /// let bytes = [0; raw::Table::BYTES];
    /// assert_eq!(raw::Table::from_bytes(&bytes), raw::empty());
    /// ```
    pub const BYTES: usize = 7168;

    /// The table as it lies in memory, to be stored or compared.
    ///
    /// ```
    /// # use yeqontur::Table;
    /// let (mut one, mut other) = (Table::new(), Table::new());
    /// one.add(1, &[2, 3], &[])?;
    /// other.add(1, &[3, 2], &[])?;
    /// assert_eq!(one.as_raw().as_bytes(), other.as_raw().as_bytes());
    /// # Ok::<(), yeqontur::Refusal>(())
    /// ```
    #[must_use]
    pub fn as_bytes(&self) -> &[u8; Table::BYTES] {
        // SAFETY: a table has so many bytes, and each belongs to a number (layout.rs).
        unsafe { &*(self as *const Table).cast() }
    }

    /// The table that has these bytes, sound or not.
    ///
    /// ```
    /// # use yeqontur::{raw, Refusal, Table};
    /// let mut table = Table::new();
    /// table.add(1, &[], &[])?;
    /// let mut stored = *table.as_raw().as_bytes();
    /// assert_eq!(Table::try_from(raw::Table::from_bytes(&stored)), Ok(table));
    /// stored[0] = 7; // the state of slot 0
    /// assert_eq!(Table::try_from(raw::Table::from_bytes(&stored)), Err(Refusal::TableUnsound));
    /// # Ok::<(), Refusal>(())
    /// ```
    #[must_use]
    pub fn from_bytes(bytes: &[u8; Table::BYTES]) -> Table {
        // SAFETY: a table is numbers, which any bytes are.
        unsafe { std::mem::transmute(*bytes) }
    }
}

/// What an addition or a removal answers.
///
/// ```
/// # use yeqontur::raw;
/// let added = raw::add(&raw::empty(), 1, &[], &[]);
/// let removed = raw::remove(&added.table, added.slot);
/// assert_eq!((removed.refused, removed.slot), (0, 0));
/// assert_eq!(removed.table, raw::empty());
/// ```
#[must_use = "the changed table is in the answer: the one that was lent is as it was"]
#[repr(C)]
#[derive(Clone, Copy, PartialEq, Eq, Hash, Debug)]
pub struct Change {
    /// 0, or the number of the refusal.
    pub refused: u32,
    /// The slot that an addition took or a removal freed; 0 where it was refused.
    pub slot: u32,
    /// The changed table; where it was refused, the one that was lent.
    pub table: Table,
}

/// The label of an atom.
///
/// ```
/// # use yeqontur::raw;
/// let table = raw::add(&raw::empty(), 1, &[], &[]).table;
/// let label = raw::label(&table, 1);
/// let told = raw::LabelAnswer { refused: 0, state: 2, depth: 1, slot: 0 };
/// assert_eq!(label, told);
/// ```
#[must_use = "the answer says whether the call was refused"]
#[repr(C)]
#[derive(Clone, Copy, PartialEq, Eq, Hash, Debug)]
pub struct LabelAnswer {
    /// 0, or the number of the refusal.
    pub refused: u32,
    /// 0 of an absent atom, 1 of one that is out, 2 of one that is in; 0 where refused.
    pub state: u32,
    /// Of an in atom its least depth, otherwise 0.
    pub depth: u32,
    /// Of an in atom the supporting slot, otherwise 0.
    pub slot: u32,
}

/// The rule in a slot.
///
/// ```
/// # use yeqontur::raw;
/// let table = raw::add(&raw::empty(), 5, &[3, 1], &[4]).table; // 5 if 3 and 1, and not 4
/// let entries = [1, 3, 4, 0, 0, 0, 0, 0];
/// let told = raw::RuleAnswer { refused: 0, head: 5, muted: 0, positives: 2, negatives: 1, entries };
/// assert_eq!(raw::rule(&table, 0), told);
/// ```
#[must_use = "the answer says whether the call was refused"]
#[repr(C)]
#[derive(Clone, Copy, PartialEq, Eq, Hash, Debug)]
pub struct RuleAnswer {
    /// 0, or the number of the refusal. Where refused, every other number is 0.
    pub refused: u32,
    /// The atom that the rule gives.
    pub head: u32,
    /// 1 if the rule is muted, otherwise 0.
    pub muted: u32,
    /// How many of the entries are positive.
    pub positives: u32,
    /// How many of the entries behind those are negative.
    pub negatives: u32,
    /// The positive list, then the negative one, each ascending, then zeros.
    pub entries: [u32; ENTRIES],
}

/// Whether a rule is valid, or what spoils it.
///
/// ```
/// # use yeqontur::raw;
/// let table = raw::add(&raw::empty(), 1, &[3, 2], &[]).table; // 1 if 3 and 2
/// let told = raw::SpoilerAnswer { refused: 0, spoiled: 1, atom: 2, place: 0 };
/// assert_eq!(raw::spoiler(&table, 0), told);
/// ```
#[must_use = "the answer says whether the call was refused"]
#[repr(C)]
#[derive(Clone, Copy, PartialEq, Eq, Hash, Debug)]
pub struct SpoilerAnswer {
    /// 0, or the number of the refusal.
    pub refused: u32,
    /// 0 for a valid rule, 1 if it needs `atom`, 2 if it is blocked by `atom`, and 3 if it is muted; 0 where refused.
    pub spoiled: u32,
    /// The atom of the entry that spoils the rule, otherwise 0.
    pub atom: u32,
    /// The place of that entry in the positive (1) or the negative list (2), as the slot keeps it, from 0; otherwise 0.
    pub place: u32,
}

/// How much was written into a lent buffer.
///
/// ```
/// # use yeqontur::raw::{self, List};
/// let table = raw::add(&raw::empty(), 1, &[2], &[]).table;
/// let told = raw::list(List::Consequences, &table, 2, &mut []);
/// assert_eq!(told, raw::ListAnswer { refused: 11, count: 1 });
/// ```
#[must_use = "the answer says how much of the buffer was written, or that the call was refused"]
#[repr(C)]
#[derive(Clone, Copy, PartialEq, Eq, Hash, Debug)]
pub struct ListAnswer {
    /// 0, or the number of the refusal.
    pub refused: u32,
    /// How many entries or bytes were written, or with refusal 11 how many are needed; 0 with any other refusal.
    pub count: usize,
}

/// That a call was accepted, of one that has nothing else to tell.
///
/// ```
/// # use yeqontur::raw;
/// let table = raw::add(&raw::empty(), 1, &[], &[]).table;
/// let muted = raw::mute(&table, 0, 1);
/// assert_eq!((muted.refused, raw::rule(&muted.table, 0).muted), (0, 1));
/// assert_eq!(raw::mute(&table, 1, 1), raw::Accepted { refused: 9, table });
/// ```
#[must_use = "the table is in the answer: one that was lent is as it was"]
#[repr(C)]
#[derive(Clone, Copy, PartialEq, Eq, Hash, Debug)]
pub struct Accepted {
    /// 0, or the number of the refusal.
    pub refused: u32,
    /// The new table; where it was refused, the one that was lent, or the empty one where the call takes none.
    pub table: Table,
}

/// Whether a checklist is complete.
///
/// ```
/// # use yeqontur::raw::{self, Completeness};
/// let one = raw::checklist_open(1).table;
/// assert_eq!(raw::checklist_complete(&one), Completeness { refused: 0, complete: 0 });
/// let empty = raw::empty();
/// assert_eq!(raw::checklist_complete(&empty), Completeness { refused: 15, complete: 0 });
/// ```
#[must_use = "the answer says whether the call was refused"]
#[repr(C)]
#[derive(Clone, Copy, PartialEq, Eq, Hash, Debug)]
pub struct Completeness {
    /// 0, or the number of the refusal.
    pub refused: u32,
    /// 1 or 0; 0 where refused.
    pub complete: u32,
}

extern "C" {
    fn yeqontur_version() -> u32;
    fn yeqontur_layout() -> u32;
    fn yeqontur_empty() -> Table;
    fn yeqontur_add(
        table: Table,
        head: u32,
        positives: *const u32,
        positive_count: usize,
        negatives: *const u32,
        negative_count: usize,
    ) -> Change;
    fn yeqontur_remove(table: Table, slot: u32) -> Change;
    fn yeqontur_replace(
        table: Table,
        slot: u32,
        head: u32,
        positives: *const u32,
        positive_count: usize,
        negatives: *const u32,
        negative_count: usize,
    ) -> Accepted;
    fn yeqontur_mute(table: Table, slot: u32, muted: u32) -> Accepted;
    fn yeqontur_label(table: Table, atom: u32) -> LabelAnswer;
    fn yeqontur_labels(table: Table, buffer: *mut u32, length: usize) -> ListAnswer;
    fn yeqontur_rule(table: Table, slot: u32) -> RuleAnswer;
    fn yeqontur_spoiler(table: Table, slot: u32) -> SpoilerAnswer;
    fn yeqontur_justifications(
        table: Table,
        atom: u32,
        buffer: *mut u32,
        length: usize,
    ) -> ListAnswer;
    fn yeqontur_consequences(
        table: Table,
        atom: u32,
        buffer: *mut u32,
        length: usize,
    ) -> ListAnswer;
    fn yeqontur_repercussions(
        table: Table,
        atom: u32,
        buffer: *mut u32,
        length: usize,
    ) -> ListAnswer;
    fn yeqontur_reason(table: Table, atom: u32, buffer: *mut u32, length: usize) -> ListAnswer;
    fn yeqontur_save(table: Table, bytes: *mut u8, length: usize) -> ListAnswer;
    fn yeqontur_load(bytes: *const u8, length: usize) -> Accepted;
    fn yeqontur_checklist_open(files: u32) -> Accepted;
    fn yeqontur_checklist_sent(table: Table, file: u32) -> Accepted;
    fn yeqontur_checklist_skipped(table: Table, file: u32) -> Accepted;
    fn yeqontur_checklist_withdraw(table: Table, file: u32) -> Accepted;
    fn yeqontur_checklist_missing(table: Table, buffer: *mut u32, length: usize) -> ListAnswer;
    fn yeqontur_checklist_complete(table: Table) -> Completeness;
}

/// The version of the library that is linked: two digits each for major, minor and patch.
///
/// ```
/// let number = yeqontur::version();
/// let text = format!("{}.{}.{}", number / 10_000, number / 100 % 100, number % 100);
/// assert_eq!(text, yeqontur::VERSION);
/// ```
#[must_use]
pub fn version() -> u32 {
    // SAFETY: takes nothing.
    unsafe { yeqontur_version() }
}

/// The layout of the tables and answers of the library that is linked ([`LAYOUT`]).
///
/// ```
/// assert_eq!(yeqontur::layout(), 2);
/// ```
#[must_use]
pub fn layout() -> u32 {
    // SAFETY: takes nothing.
    unsafe { yeqontur_layout() }
}

/// The table in which every slot is free.
///
/// ```
/// # use yeqontur::raw;
/// assert_eq!(raw::empty().as_bytes(), &[0; raw::Table::BYTES]);
/// ```
#[must_use]
#[inline(never)]
pub fn empty() -> Table {
    // SAFETY: takes nothing.
    unsafe { yeqontur_empty() }
}

/// `yeqontur_add`: adds a rule to the lowest free slot. Asks 15, 1, 2, 3, 4, 5, 6, 7.
///
/// ```
/// # use yeqontur::raw;
/// let added = raw::add(&raw::empty(), 1, &[2], &[3]); // 1 if 2, and not 3
/// assert_eq!((added.refused, added.slot), (0, 0));
/// assert_eq!(raw::rule(&added.table, 0).head, 1);
/// assert_eq!(raw::add(&added.table, 256, &[], &[]).refused, 1);
/// ```
#[inline(never)]
pub fn add(table: &Table, head: u32, positives: &[u32], negatives: &[u32]) -> Change {
    // SAFETY: each pointer has as many numbers behind it as the length beside it says.
    unsafe {
        yeqontur_add(
            *table,
            head,
            positives.as_ptr(),
            positives.len(),
            negatives.as_ptr(),
            negatives.len(),
        )
    }
}

/// `yeqontur_remove`: frees a slot. Asks 15, 8, 9.
///
/// ```
/// # use yeqontur::raw;
/// let table = raw::add(&raw::empty(), 1, &[], &[]).table;
/// assert_eq!(raw::remove(&table, 0).table, raw::empty());
/// assert_eq!(raw::remove(&table, 1).refused, 9);
/// ```
#[inline(never)]
pub fn remove(table: &Table, slot: u32) -> Change {
    // SAFETY: numbers by value.
    unsafe { yeqontur_remove(*table, slot) }
}

/// `yeqontur_replace`: replaces the rule in a slot by another. Asks 15, 8, 9, 1, 2, 3, 4, 5, 7.
///
/// ```
/// # use yeqontur::raw;
/// let table = raw::add(&raw::empty(), 1, &[], &[]).table;
/// let replaced = raw::replace(&table, 0, 2, &[], &[]);
/// assert_eq!((replaced.refused, raw::rule(&replaced.table, 0).head), (0, 2));
/// let refused = raw::replace(&table, 0, 2, &[], &[2]); // 2 if not 2
/// assert_eq!((refused.refused, refused.table), (7, table));
/// ```
#[inline(never)]
pub fn replace(
    table: &Table,
    slot: u32,
    head: u32,
    positives: &[u32],
    negatives: &[u32],
) -> Accepted {
    // SAFETY: each pointer has as many numbers behind it as the length beside it says.
    unsafe {
        yeqontur_replace(
            *table,
            slot,
            head,
            positives.as_ptr(),
            positives.len(),
            negatives.as_ptr(),
            negatives.len(),
        )
    }
}

/// `yeqontur_mute`: mutes the rule in a slot; where `muted` is 0 it unmutes, and any other number mutes. Asks 15, 8, 9.
///
/// ```
/// # use yeqontur::raw;
/// let table = raw::add(&raw::empty(), 1, &[], &[]).table;
/// let muted = raw::mute(&table, 0, 1).table;
/// assert_eq!(raw::label(&muted, 1).state, 1);
/// assert_eq!(raw::mute(&muted, 0, 0).table, table);
/// ```
#[inline(never)]
pub fn mute(table: &Table, slot: u32, muted: u32) -> Accepted {
    // SAFETY: numbers by value.
    unsafe { yeqontur_mute(*table, slot, muted) }
}

/// `yeqontur_label`: the label of an atom. Asks 15, 10.
///
/// ```
/// # use yeqontur::raw;
/// let table = raw::add(&raw::empty(), 1, &[2], &[]).table; // 1 if 2
/// assert_eq!(raw::label(&table, 1).state, 1);
/// assert_eq!(raw::label(&table, 256).refused, 10);
/// ```
#[inline(never)]
pub fn label(table: &Table, atom: u32) -> LabelAnswer {
    // SAFETY: numbers by value.
    unsafe { yeqontur_label(*table, atom) }
}

/// `yeqontur_labels`: writes of each atom that occurs, ascending, four numbers from the start of the buffer: the atom, 1
/// if it is out or 2 if it is in, and of an in atom its depth and its supporting slot, otherwise 0 and 0. Asks 15, 11.
///
/// ```
/// # use yeqontur::raw;
/// let table = raw::add(&raw::empty(), 7, &[], &[2]).table; // 7 if not 2
/// let mut numbers = [9; raw::LABEL_NUMBERS];
/// let told = raw::labels(&table, &mut numbers);
/// assert_eq!((told.refused, told.count), (0, 8));
/// assert_eq!(numbers[..9], [2, 1, 0, 0, 7, 2, 1, 0, 9]);
/// ```
#[inline(never)]
pub fn labels(table: &Table, buffer: &mut [u32]) -> ListAnswer {
    // SAFETY: the buffer has as many entries as the length says, and is lent to this call alone.
    unsafe { yeqontur_labels(*table, buffer.as_mut_ptr(), buffer.len()) }
}

/// `yeqontur_rule`: the rule in a slot. Asks 15, 8, 9.
///
/// ```
/// # use yeqontur::raw;
/// let table = raw::add(&raw::empty(), 1, &[2], &[]).table; // 1 if 2
/// let rule = raw::rule(&table, 0);
/// assert_eq!((rule.head, rule.positives, rule.entries[0]), (1, 1, 2));
/// assert_eq!(raw::rule(&table, 1).refused, 9);
/// ```
#[inline(never)]
pub fn rule(table: &Table, slot: u32) -> RuleAnswer {
    // SAFETY: numbers by value.
    unsafe { yeqontur_rule(*table, slot) }
}

/// `yeqontur_spoiler`: whether the rule in a slot is valid, or the first entry that spoils it. Asks 15, 8, 9.
///
/// ```
/// # use yeqontur::raw;
/// let table = raw::add(&raw::empty(), 1, &[2], &[]).table; // 1 if 2
/// let told = raw::spoiler(&table, 0);
/// assert_eq!((told.spoiled, told.atom, told.place), (1, 2, 0));
/// ```
#[inline(never)]
pub fn spoiler(table: &Table, slot: u32) -> SpoilerAnswer {
    // SAFETY: numbers by value.
    unsafe { yeqontur_spoiler(*table, slot) }
}

/// A call that writes a list of numbers. More may come.
///
/// ```
/// # use yeqontur::{List, Table};
/// let mut table = Table::new();
/// table.add(7, &[], &[])?; // 7
/// table.add(8, &[7], &[])?; // 8 if 7
/// let told = |which, atom| {
///     let mut buffer = [0; 256];
///     let count = table.list_into(which, atom, &mut buffer)?;
///     Ok::<_, yeqontur::Refusal>(buffer[..count].to_vec())
/// };
/// assert_eq!(told(List::Justifications, 8)?, [1]);
/// assert_eq!(told(List::Consequences, 7)?, [8]);
/// assert_eq!(told(List::Repercussions, 7)?, [8]);
/// assert_eq!(told(List::Reason, 8)?, [0, 1]);
/// # Ok::<(), yeqontur::Refusal>(())
/// ```
#[non_exhaustive]
#[derive(Clone, Copy, PartialEq, Eq, Hash, Debug)]
pub enum List {
    /// The slots of the rules with this head: [`crate::Table::justifications`].
    Justifications,
    /// The heads of the rules with this entry: [`crate::Table::consequences`].
    Consequences,
    /// The atoms whose label rests on this one: [`crate::Table::repercussions`].
    Repercussions,
    /// The slots of the rules that hold this atom up: [`crate::Table::reason`].
    Reason,
}

/// The call that `which` names: writes its list from the start of the buffer. Asks 15, 10, of a reason 12, and 11.
///
/// ```
/// # use yeqontur::raw::{self, List};
/// let table = raw::add(&raw::empty(), 1, &[], &[]).table;
/// let mut buffer = [9; 2];
/// let told = raw::list(List::Reason, &table, 1, &mut buffer);
/// assert_eq!((told.refused, told.count), (0, 1));
/// assert_eq!(buffer, [0, 9]);
/// assert_eq!(raw::list(List::Reason, &table, 2, &mut buffer).refused, 12);
/// ```
#[inline(never)]
pub fn list(which: List, table: &Table, atom: u32, buffer: &mut [u32]) -> ListAnswer {
    let call = match which {
        List::Justifications => yeqontur_justifications,
        List::Consequences => yeqontur_consequences,
        List::Repercussions => yeqontur_repercussions,
        List::Reason => yeqontur_reason,
    };
    // SAFETY: the buffer has as many entries as the length says, and is lent to this call alone.
    unsafe { call(*table, atom, buffer.as_mut_ptr(), buffer.len()) }
}

/// `yeqontur_save`: writes the table's file from the start of the buffer. Asks 15, 11.
///
/// ```
/// # use yeqontur::raw;
/// let mut bytes = [0; raw::FILE_BYTES];
/// let saved = raw::save(&raw::empty(), &mut bytes);
/// assert_eq!((saved.refused, saved.count), (0, 512));
/// let short = raw::save(&raw::empty(), &mut bytes[..511]);
/// assert_eq!((short.refused, short.count), (11, 512));
/// ```
#[inline(never)]
pub fn save(table: &Table, bytes: &mut [u8]) -> ListAnswer {
    // SAFETY: as many bytes may be written as the length says, and they are lent to this call alone.
    unsafe { yeqontur_save(*table, bytes.as_mut_ptr(), bytes.len()) }
}

/// `yeqontur_load`: the table of a file. Asks 16, 17, 18, 19.
///
/// ```
/// # use yeqontur::raw;
/// let table = raw::add(&raw::empty(), 1, &[], &[]).table;
/// let mut bytes = [0; 512];
/// let saved = raw::save(&table, &mut bytes);
/// let loaded = raw::load(&bytes[..saved.count]);
/// assert_eq!((loaded.refused, loaded.table), (0, table));
/// assert_eq!(raw::load(&[]).refused, 16);
/// ```
#[inline(never)]
pub fn load(bytes: &[u8]) -> Accepted {
    // SAFETY: the pointer has as many bytes behind it as the length says.
    unsafe { yeqontur_load(bytes.as_ptr(), bytes.len()) }
}

/// `yeqontur_checklist_open`: a checklist of so many files, none of them sent or skipped. Asks 21.
///
/// ```
/// # use yeqontur::raw;
/// let opened = raw::checklist_open(2);
/// assert_eq!(opened.refused, 0);
/// assert_eq!(raw::rule(&opened.table, 2).head, 6);
/// assert_eq!(raw::checklist_open(0).refused, 21);
/// ```
#[inline(never)]
pub fn checklist_open(files: u32) -> Accepted {
    // SAFETY: a number by value.
    unsafe { yeqontur_checklist_open(files) }
}

/// `yeqontur_checklist_sent`: the file was sent. Asks 15, 20, 22.
///
/// ```
/// # use yeqontur::raw;
/// let sent = raw::checklist_sent(&raw::checklist_open(1).table, 1);
/// assert_eq!(raw::checklist_complete(&sent.table).complete, 1);
/// assert_eq!(raw::checklist_sent(&sent.table, 1).refused, 22);
/// ```
#[inline(never)]
pub fn checklist_sent(table: &Table, file: u32) -> Accepted {
    // SAFETY: numbers by value.
    unsafe { yeqontur_checklist_sent(*table, file) }
}

/// `yeqontur_checklist_skipped`: the file was skipped. Asks 15, 20, 22.
///
/// ```
/// # use yeqontur::raw;
/// let skipped = raw::checklist_skipped(&raw::checklist_open(1).table, 1);
/// assert_eq!(skipped.refused, 0);
/// assert_eq!(raw::checklist_skipped(&skipped.table, 2).refused, 20);
/// ```
#[inline(never)]
pub fn checklist_skipped(table: &Table, file: u32) -> Accepted {
    // SAFETY: numbers by value.
    unsafe { yeqontur_checklist_skipped(*table, file) }
}

/// `yeqontur_checklist_withdraw`: the skip of the file is withdrawn. Asks 15, 20, 22.
///
/// ```
/// # use yeqontur::raw;
/// let opened = raw::checklist_open(1).table;
/// let skipped = raw::checklist_skipped(&opened, 1).table;
/// assert_eq!(raw::checklist_withdraw(&skipped, 1).table, opened);
/// assert_eq!(raw::checklist_withdraw(&opened, 1).refused, 22);
/// ```
#[inline(never)]
pub fn checklist_withdraw(table: &Table, file: u32) -> Accepted {
    // SAFETY: numbers by value.
    unsafe { yeqontur_checklist_withdraw(*table, file) }
}

/// `yeqontur_checklist_missing`: writes the files that are unsent or have a skip standing. Asks 15, 11.
///
/// ```
/// # use yeqontur::raw;
/// let sent = raw::checklist_sent(&raw::checklist_open(3).table, 2).table;
/// let mut files = [0; raw::MOST_FILES];
/// let told = raw::checklist_missing(&sent, &mut files);
/// assert_eq!(files[..told.count], [1, 3]);
/// ```
#[inline(never)]
pub fn checklist_missing(table: &Table, buffer: &mut [u32]) -> ListAnswer {
    // SAFETY: the buffer has as many entries as the length says, and is lent to this call alone.
    unsafe { yeqontur_checklist_missing(*table, buffer.as_mut_ptr(), buffer.len()) }
}

/// `yeqontur_checklist_complete`: whether every file was sent and no skip stands. Asks 15.
///
/// ```
/// # use yeqontur::raw;
/// let opened = raw::checklist_open(1).table;
/// assert_eq!(raw::checklist_complete(&opened).complete, 0);
/// let sent = raw::checklist_sent(&opened, 1).table;
/// assert_eq!(raw::checklist_complete(&sent).complete, 1);
/// ```
#[inline(never)]
pub fn checklist_complete(table: &Table) -> Completeness {
    // SAFETY: numbers by value.
    unsafe { yeqontur_checklist_complete(*table) }
}
