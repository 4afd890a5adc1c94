//! Labels, and the walk over them.

use crate::table::answered;
use crate::{raw, Table};
use std::fmt;

/// The label of an atom: one of these three, and no other will come.
///
/// ```
/// use yeqontur::{Label, Table};
///
/// let mut table = Table::new();
/// table.add(1, &[2], &[3])?; // 1 if 2, and not 3
/// assert_eq!(table.label(1)?, Label::Out);
/// assert_eq!(table.label(4)?, Label::Absent);
/// table.add(2, &[], &[])?;
/// assert_eq!(table.label(1)?, Label::In { depth: 2, slot: 0 });
/// # Ok::<(), yeqontur::Refusal>(())
/// ```
#[derive(Clone, Copy, PartialEq, Eq, Hash, Debug)]
pub enum Label {
    /// The atom stands in no rule, muted or not.
    Absent,
    /// The atom stands in a rule, but no unmuted rule with this head is valid. A muted rule may have this head.
    Out,
    /// In, at its least depth, by the rule in the supporting slot.
    In {
        /// How many steps it is from the facts; 1 by a rule without positive entries.
        depth: u32,
        /// The slot of the rule that gives it at this depth; of several the lowest.
        slot: u32,
    },
}

impl Label {
    /// Whether the atom is in.
    ///
    /// ```
    /// # use yeqontur::Table;
    /// let mut table = Table::new();
    /// table.add(1, &[], &[2])?; // 1 if not 2
    /// assert!(table.label(1)?.is_in());
    /// assert!(!table.label(2)?.is_in());
    /// # Ok::<(), yeqontur::Refusal>(())
    /// ```
    #[must_use]
    pub fn is_in(self) -> bool {
        matches!(self, Label::In { .. })
    }

    /// The label that the numbers of the boundary stand for.
    pub(crate) fn from_numbers(state: u32, depth: u32, slot: u32) -> Label {
        match state {
            0 => Label::Absent,
            1 => Label::Out,
            _ => Label::In { depth, slot },
        }
    }
}

/// What follows `is` in a sentence.
///
/// ```
/// # use yeqontur::Label;
/// assert_eq!(Label::Absent.to_string(), "absent");
/// assert_eq!(Label::Out.to_string(), "out");
/// let label = Label::In { depth: 3, slot: 2 };
/// assert_eq!(label.to_string(), "in, depth 3, by slot 2");
/// ```
impl fmt::Display for Label {
    fn fmt(&self, f: &mut fmt::Formatter<'_>) -> fmt::Result {
        match self {
            Label::Absent => f.write_str("absent"),
            Label::Out => f.write_str("out"),
            Label::In { depth, slot } => write!(f, "in, depth {depth}, by slot {slot}"),
        }
    }
}

impl Table {
    /// The atoms that occur, ascending, each with its label. The library is asked once for all of them.
    ///
    /// ```
    /// # use yeqontur::Table;
    /// let mut table = Table::new();
    /// table.add(9, &[2], &[7])?; // 9 if 2, and not 7
    /// table.add(2, &[], &[])?; // 2
    /// let lines: Vec<String> = table.labels().map(|(atom, label)| format!("{atom} is {label}")).collect();
    /// assert_eq!(lines, ["2 is in, depth 1, by slot 1", "7 is out", "9 is in, depth 2, by slot 0"]);
    /// # Ok::<(), yeqontur::Refusal>(())
    /// ```
    pub fn labels(&self) -> impl Iterator<Item = (u32, Label)> {
        let mut numbers = vec![0; raw::LABEL_NUMBERS];
        let told = raw::labels(self.as_raw(), &mut numbers);
        let count = answered(told.refused, told.count, told.count);
        numbers.truncate(count.expect("a sound table, and room for any"));
        let four = |i: usize| {
            let label = Label::from_numbers(numbers[i + 1], numbers[i + 2], numbers[i + 3]);
            (numbers[i], label)
        };
        let labels: Vec<(u32, Label)> = (0..numbers.len()).step_by(4).map(four).collect();
        labels.into_iter()
    }
}
