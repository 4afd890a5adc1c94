//! Why an atom has its label, as a tree put together from the library's answers.

use crate::{raw, Label, Refusal, Rule, Side, Table, Validity};
use std::fmt;

/// An atom, its label, and why it has it. More fields may come.
///
/// ```
/// # use yeqontur::{Because, Table};
/// let mut table = Table::new();
/// table.add(1, &[2], &[])?; // 1 if 2
/// table.add(2, &[], &[])?; // 2
/// let why = table.why(1)?;
/// assert_eq!(format!("{} is {}", why.atom, why.label), "1 is in, depth 2, by slot 0");
/// let Because::Supported { rule, from } = &why.because else { panic!("1 is in") };
/// assert_eq!(rule.to_string(), "1 < 2");
/// assert_eq!(format!("{} is {}", from[0].atom, from[0].label), "2 is in, depth 1, by slot 1");
/// # Ok::<(), yeqontur::Refusal>(())
/// ```
#[non_exhaustive]
#[derive(Clone, PartialEq, Eq, Hash, Debug)]
pub struct Why {
    /// The atom.
    pub atom: u32,
    /// Its label.
    pub label: Label,
    /// Why it has this label, down to the facts and to the atoms that nothing derives.
    pub because: Because,
}

/// The tree is finite and has at most one branch for each entry of each rule, and one for each muted rule: where the
/// branches of an atom would be told again, it is cut, and says where they stand. Reading order is depth first, left to
/// right. More cases may come.
///
/// ```
/// # use yeqontur::{Because, Table, Why};
/// /// The facts that an atom rests on, in reading order.
/// fn facts(why: &Why) -> Vec<u32> {
///     match &why.because {
///         Because::Supported { from, .. } if from.is_empty() => vec![why.atom],
///         Because::Supported { from, .. } => from.iter().flat_map(facts).collect(),
///         _ => vec![],
///     }
/// }
///
/// let mut table = Table::new();
/// table.add(1, &[2, 3], &[])?; // 1 if 2 and 3
/// table.add(2, &[], &[])?; // 2
/// table.add(3, &[], &[])?; // 3
/// assert_eq!(facts(&table.why(1)?), [2, 3]);
/// assert_eq!(table.why(4)?.because, Because::Absent);
/// # Ok::<(), yeqontur::Refusal>(())
/// ```
#[non_exhaustive]
#[derive(Clone, PartialEq, Eq, Hash, Debug)]
pub enum Because {
    /// The atom stands in no rule, muted or not: one that only muted rules name is out.
    Absent,
    /// In, by its supporting rule. No negative entry of it is in.
    Supported {
        /// The supporting rule.
        rule: Rule,
        /// A branch for each positive entry, ascending.
        from: Vec<Why>,
    },
    /// Out, since each of its rules, by slot, is stopped. An atom that is the head of no rule has none to show.
    Stopped(Vec<Stopped>),
    /// Cut: the atom stands above on this path, and waits for itself. Only an out atom can.
    Above,
    /// Cut: the branches of this atom were told earlier in the tree, on another path.
    Earlier,
}

/// A rule of an out atom, and what stops it. More fields may come.
///
/// ```
/// # use yeqontur::{Because, Table};
/// let mut table = Table::new();
/// table.add(1, &[2], &[])?; // 1 if 2
/// let Because::Stopped(rules) = table.why(1)?.because else { panic!("1 is out") };
/// assert_eq!(format!("{} {}", rules[0].rule, rules[0].stop), "1 < 2 needs 2");
/// # Ok::<(), yeqontur::Refusal>(())
/// ```
#[non_exhaustive]
#[derive(Clone, PartialEq, Eq, Hash, Debug)]
pub struct Stopped {
    /// The rule.
    pub rule: Rule,
    /// What stops it.
    pub stop: Stop,
}

/// What stops a rule: the first entry that spoils it, or that it is muted. More cases may come.
///
/// ```
/// # use yeqontur::{Because, Side, Stop, Table};
/// let mut table = Table::new();
/// table.add(1, &[], &[2])?; // 1 if not 2
/// table.add(2, &[], &[])?; // 2
/// let Because::Stopped(rules) = table.why(1)?.because else { panic!("1 is out") };
/// let Stop::Spoiled { side, place, by } = &rules[0].stop else { panic!("2 blocks it") };
/// assert_eq!((*side, *place, by.atom), (Side::Negative, 0, 2));
/// assert!(by.label.is_in());
/// # Ok::<(), yeqontur::Refusal>(())
/// ```
#[non_exhaustive]
#[derive(Clone, PartialEq, Eq, Hash, Debug)]
pub enum Stop {
    /// An entry spoils it.
    Spoiled {
        /// The entry's list: the rule needs a positive entry, and is blocked by a negative one.
        side: Side,
        /// The entry's place in that list, which ascends, from 0.
        place: u32,
        /// The entry's atom, with its own branches.
        by: Why,
    },
    /// Whatever its entries are: no branch is theirs.
    Muted,
}

/// What follows the rule in a sentence, as with [`Validity`].
///
/// ```
/// # use yeqontur::{Because, Table};
/// let mut table = Table::new();
/// table.add(1, &[2], &[])?; // 1 if 2
/// table.add(1, &[], &[])?; // 1
/// table.mute(1)?;
/// let Because::Stopped(rules) = table.why(1)?.because else { panic!("1 is out") };
/// let lines: Vec<String> = rules.iter().map(|s| format!("slot {} {}", s.rule.slot, s.stop)).collect();
/// assert_eq!(lines, ["slot 0 needs 2", "slot 1 is muted"]);
/// # Ok::<(), yeqontur::Refusal>(())
/// ```
impl fmt::Display for Stop {
    fn fmt(&self, f: &mut fmt::Formatter<'_>) -> fmt::Result {
        match self {
            Stop::Spoiled { side, by, .. } => write!(f, "{side} {}", by.atom),
            Stop::Muted => f.write_str("is muted"),
        }
    }
}

/// How far the branches of an atom have been told.
#[derive(Clone, Copy, PartialEq, Eq)]
enum Told {
    No,
    Begun,
    Whole,
}

struct Teller<'a> {
    table: &'a Table,
    labels: [Label; raw::ATOMS],
    told: [Told; raw::ATOMS],
}

impl Table {
    /// Why an atom is in, out or absent, down to the facts and to the atoms that nothing derives.
    ///
    /// ```
    /// # use yeqontur::{Because, Refusal, Stop, Stopped, Table, Why};
    /// /// A line for each step from an out atom to what it lacks.
    /// fn lacks(why: &Why) -> Vec<String> {
    ///     let Because::Stopped(rules) = &why.because else { return vec![] };
    ///     let line = |rule: &Stopped| match &rule.stop {
    ///         Stop::Spoiled { side, by, .. } => {
    ///             [vec![format!("{} {side} {}", why.atom, by.atom)], lacks(by)].concat()
    ///         }
    ///         stop => vec![format!("{} {stop}", why.atom)],
    ///     };
    ///     rules.iter().flat_map(line).collect()
    /// }
    ///
    /// let mut table = Table::new();
    /// table.add(1, &[2], &[])?; // 1 if 2
    /// table.add(2, &[3], &[4])?; // 2 if 3, and not 4
    /// table.add(3, &[], &[])?; // 3
    /// table.add(4, &[], &[])?; // 4
    /// assert_eq!(lacks(&table.why(1)?), ["1 needs 2", "2 is blocked by 4"]);
    /// assert_eq!(table.why(256), Err(Refusal::AtomTooLarge));
    /// # Ok::<(), yeqontur::Refusal>(())
    /// ```
    ///
    /// # Errors
    ///
    /// [`Refusal::AtomTooLarge`] (10).
    pub fn why(&self, atom: u32) -> Result<Why, Refusal> {
        self.label(atom)?; // asks whether it is an atom
        let mut labels = [Label::Absent; raw::ATOMS];
        for (atom, label) in self.labels() {
            labels[atom as usize] = label;
        }
        let told = [Told::No; raw::ATOMS];
        let mut teller = Teller {
            table: self,
            labels,
            told,
        };
        teller.why(atom)
    }
}

impl Teller<'_> {
    fn why(&mut self, atom: u32) -> Result<Why, Refusal> {
        let label = self.labels[atom as usize];
        let because = match self.told[atom as usize] {
            Told::No => self.because(atom, label)?,
            Told::Begun => Because::Above,
            Told::Whole => Because::Earlier,
        };
        Ok(Why {
            atom,
            label,
            because,
        })
    }

    /// An atom without branches may be told many times: that is short.
    fn because(&mut self, atom: u32, label: Label) -> Result<Because, Refusal> {
        self.told[atom as usize] = Told::Begun;
        let because = match label {
            Label::Absent => Because::Absent,
            Label::In { slot, .. } => self.supported(slot)?,
            Label::Out => self.stopped(atom)?,
        };
        self.told[atom as usize] = match &because {
            Because::Supported { from, .. } if !from.is_empty() => Told::Whole,
            Because::Stopped(rules) if !rules.is_empty() => Told::Whole,
            _ => Told::No,
        };
        Ok(because)
    }

    fn supported(&mut self, slot: u32) -> Result<Because, Refusal> {
        let rule = self.table.rule(slot)?;
        let mut from = Vec::new();
        for &atom in &rule.positives {
            from.push(self.why(atom)?);
        }
        Ok(Because::Supported { rule, from })
    }

    // Not inlined: each of the 256 levels of the deepest tree of in atoms would have room for it.
    #[inline(never)]
    fn stopped(&mut self, atom: u32) -> Result<Because, Refusal> {
        let mut rules = Vec::new();
        for slot in self.table.justifications(atom)? {
            let stop = match self.table.spoiler(slot)? {
                Validity::Valid => continue, // none of an out atom is
                Validity::Muted => Stop::Muted,
                Validity::Spoiled { side, place, atom } => {
                    let by = self.why(atom)?;
                    Stop::Spoiled { side, place, by }
                }
            };
            let rule = self.table.rule(slot)?;
            rules.push(Stopped { rule, stop });
        }
        Ok(Because::Stopped(rules))
    }
}
