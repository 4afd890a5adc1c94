//! Rules as a program reads them, and the walk over them.

use crate::table::answered;
use crate::{raw, Refusal, Table};
use std::fmt;

/// A rule that the table holds: its head is in if every positive entry is in and no negative entry is. A muted rule is
/// held and gives nothing.
///
/// Each list ascends, in whatever order the call named it. So two rules are the same exactly if their heads and their
/// lists are equal; `==` compares the slots too, and whether they are muted. Sort lists of your own before you compare
/// them with these.
///
/// It is what a table answers; a rule comes in by [`Table::add`] and [`Table::replace`]. More fields may come.
///
/// ```
/// # use yeqontur::Table;
/// let mut table = Table::new();
/// let slot = table.add(5, &[3, 1], &[4])?; // 5 if 3 and 1, and not 4
/// let rule = table.rule(slot)?;
/// assert_eq!((rule.slot, rule.head, rule.muted), (0, 5, false));
/// assert_eq!(rule.positives, [1, 3]);
/// assert_eq!(rule.negatives, [4]);
/// assert_eq!(rule.to_string(), "5 < 1, 3, not 4");
/// # Ok::<(), yeqontur::Refusal>(())
/// ```
#[non_exhaustive]
#[derive(Clone, PartialEq, Eq, Hash, Debug)]
pub struct Rule {
    /// The slot that it stands in.
    pub slot: u32,
    /// The atom that it gives.
    pub head: u32,
    /// The atoms that it needs, ascending.
    pub positives: Vec<u32>,
    /// The atoms that it is blocked by, ascending.
    pub negatives: Vec<u32>,
    /// Whether it is muted ([`Table::mute`]); a file keeps it.
    pub muted: bool,
}

/// The list that the entry that stops a rule stands in, and so how it stops it. A rule has these two, and no other will
/// come.
///
/// ```
/// # use yeqontur::{Side, Table, Validity};
/// let mut table = Table::new();
/// table.add(1, &[2], &[3])?; // 1 if 2, and not 3
/// let needs_2 = Validity::Spoiled { side: Side::Positive, place: 0, atom: 2 };
/// assert_eq!(table.spoiler(0)?, needs_2);
/// assert_eq!(table.rule(0)?.list(Side::Positive), [2]);
/// # Ok::<(), yeqontur::Refusal>(())
/// ```
#[derive(Clone, Copy, PartialEq, Eq, Hash, Debug)]
pub enum Side {
    /// The rule needs the atom, which is out.
    Positive,
    /// The rule is blocked by the atom, which is in.
    Negative,
}

/// What stands between the rule and the atom in a sentence.
///
/// ```
/// # use yeqontur::Side;
/// let sentence = |side: Side| format!("slot 0 {side} 7");
/// assert_eq!(sentence(Side::Positive), "slot 0 needs 7");
/// assert_eq!(sentence(Side::Negative), "slot 0 is blocked by 7");
/// ```
impl fmt::Display for Side {
    fn fmt(&self, f: &mut fmt::Formatter<'_>) -> fmt::Result {
        f.write_str(match self {
            Side::Positive => "needs",
            Side::Negative => "is blocked by",
        })
    }
}

/// Whether a rule is valid, or the first entry that spoils it. A muted rule is neither. More cases may come.
///
/// ```
/// # use yeqontur::{Side, Table, Validity};
/// let mut table = Table::new();
/// table.add(1, &[], &[2, 3])?; // 1 if neither 2 nor 3
/// assert_eq!(table.spoiler(0)?, Validity::Valid);
/// table.add(3, &[], &[])?; // 3
/// let blocked_by_3 = Validity::Spoiled { side: Side::Negative, place: 1, atom: 3 };
/// assert_eq!(table.spoiler(0)?, blocked_by_3);
/// table.mute(0)?;
/// assert_eq!(table.spoiler(0)?, Validity::Muted);
/// # Ok::<(), yeqontur::Refusal>(())
/// ```
#[non_exhaustive]
#[derive(Clone, Copy, PartialEq, Eq, Hash, Debug)]
pub enum Validity {
    /// Every positive entry is in and no negative one is.
    Valid,
    /// An entry spoils it.
    Spoiled {
        /// The entry's list.
        side: Side,
        /// The entry's place in that list as the table keeps it, from 0.
        place: u32,
        /// The entry's atom.
        atom: u32,
    },
    /// Whatever its entries are.
    Muted,
}

impl Validity {
    /// What the numbers of the boundary stand for.
    pub(crate) fn from_numbers(spoiled: u32, place: u32, atom: u32) -> Validity {
        let side = match spoiled {
            0 => return Validity::Valid,
            1 => Side::Positive,
            2 => Side::Negative,
            _ => return Validity::Muted,
        };
        Validity::Spoiled { side, place, atom }
    }
}

/// What follows the rule in a sentence.
///
/// ```
/// # use yeqontur::Table;
/// let mut table = Table::new();
/// table.add(1, &[2], &[3])?; // 1 if 2, and not 3
/// assert_eq!(table.spoiler(0)?.to_string(), "needs 2");
/// table.add(2, &[], &[])?;
/// assert_eq!(table.spoiler(0)?.to_string(), "is valid");
/// table.add(3, &[], &[])?;
/// assert_eq!(table.spoiler(0)?.to_string(), "is blocked by 3");
/// table.mute(0)?;
/// assert_eq!(table.spoiler(0)?.to_string(), "is muted");
/// # Ok::<(), yeqontur::Refusal>(())
/// ```
impl fmt::Display for Validity {
    fn fmt(&self, f: &mut fmt::Formatter<'_>) -> fmt::Result {
        match self {
            Validity::Valid => f.write_str("is valid"),
            Validity::Spoiled { side, atom, .. } => write!(f, "{side} {atom}"),
            Validity::Muted => f.write_str("is muted"),
        }
    }
}

impl Rule {
    /// One of the two lists.
    ///
    /// ```
    /// # use yeqontur::{Side, Table};
    /// let mut table = Table::new();
    /// table.add(1, &[2], &[4, 3])?;
    /// let rule = table.rule(0)?;
    /// assert_eq!(rule.list(Side::Positive), [2]);
    /// assert_eq!(rule.list(Side::Negative), [3, 4]);
    /// # Ok::<(), yeqontur::Refusal>(())
    /// ```
    #[must_use]
    pub fn list(&self, side: Side) -> &[u32] {
        match side {
            Side::Positive => &self.positives,
            Side::Negative => &self.negatives,
        }
    }

    /// What the numbers of the boundary stand for.
    fn from_numbers(slot: u32, told: &raw::RuleAnswer) -> Rule {
        let (positives, rest) = told.entries.split_at(told.positives as usize);
        Rule {
            slot,
            head: told.head,
            positives: positives.to_vec(),
            negatives: rest[..told.negatives as usize].to_vec(),
            muted: told.muted != 0,
        }
    }
}

/// As the specification writes it (1.3). Its slot, and that it is muted, are not written.
///
/// ```
/// # use yeqontur::Table;
/// let mut table = Table::new();
/// table.add(1, &[2], &[3])?;
/// table.add(1, &[], &[])?; // a fact
/// assert_eq!(table.rule(0)?.to_string(), "1 < 2, not 3");
/// assert_eq!(table.rule(1)?.to_string(), "1 <");
/// # Ok::<(), yeqontur::Refusal>(())
/// ```
impl fmt::Display for Rule {
    fn fmt(&self, f: &mut fmt::Formatter<'_>) -> fmt::Result {
        let positives = self.positives.iter().map(|atom| format!(" {atom}"));
        let negatives = self.negatives.iter().map(|atom| format!(" not {atom}"));
        let entries: Vec<String> = positives.chain(negatives).collect();
        write!(f, "{} <{}", self.head, entries.join(","))
    }
}

impl Table {
    /// The rules that the table holds, muted or not, by slot. The library is asked of each slot.
    ///
    /// ```
    /// # use yeqontur::Table;
    /// let mut table = Table::new();
    /// table.add(1, &[2], &[])?;
    /// table.add(2, &[], &[])?;
    /// table.add(2, &[], &[3])?;
    /// table.remove(1)?;
    /// let held: Vec<String> = table.rules().map(|rule| format!("{}: {rule}", rule.slot)).collect();
    /// assert_eq!(held, ["0: 1 < 2", "2: 2 < not 3"]);
    /// # Ok::<(), yeqontur::Refusal>(())
    /// ```
    ///
    /// Each slot is a call, which asks question 15; [`labels`](Self::labels) asks once for all.
    pub fn rules(&self) -> impl Iterator<Item = Rule> + '_ {
        (0..raw::SLOTS as u32).filter_map(|slot| self.rule(slot).ok())
    }

    /// The rule in a slot.
    ///
    /// ```
    /// # use yeqontur::{Refusal, Table};
    /// let mut table = Table::new();
    /// table.add(1, &[2], &[])?;
    /// assert_eq!(table.rule(0)?.positives, [2]);
    /// assert_eq!(table.rule(1), Err(Refusal::SlotFree));
    /// assert_eq!(table.rule(256), Err(Refusal::SlotTooLarge));
    /// # Ok::<(), yeqontur::Refusal>(())
    /// ```
    ///
    /// # Errors
    ///
    /// The first of these that applies: [`Refusal::SlotTooLarge`] (8), [`Refusal::SlotFree`] (9).
    // Not inlined, nor is what tells of an out atom (why.rs): a tree goes down 256 levels, and each has a frame.
    #[inline(never)]
    pub fn rule(&self, slot: u32) -> Result<Rule, Refusal> {
        let told = raw::rule(self.as_raw(), slot);
        answered(told.refused, 0, ())?;
        Ok(Rule::from_numbers(slot, &told))
    }
}
