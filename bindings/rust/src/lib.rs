//! The rule table behind status labels, safe to use from Rust.
//!
//! A program that shows status labels (this file is good, that folder is complete) keeps its rules here, reads each
//! label, and reads why it stands. Every call takes any numbers and lists, and answers a result or one numbered
//! refusal. The work is done by the proved library; this crate hands it on, lets a program walk over rules and labels,
//! puts the library's answers together as a tree that says why an atom has its label, and keeps a saved table in a file
//! that a program which is ended does not leave half written. What holds after a power failure is said at
//! [`Table::save_to`].
//!
//! # A checklist
//!
//! A screen that shows whether all files of a folder were sent needs no rules of its own: that is [`Checklist`].
//!
//! ```
//! use yeqontur::Checklist;
//!
//! let mut checklist = Checklist::open(3)?; // files 1, 2 and 3, before the first is sent
//! checklist.sent(1)?;
//! checklist.skipped(2)?;
//! checklist.sent(3)?;
//! assert!(!checklist.complete());
//! assert_eq!(checklist.to_string(), "complete: no. File 2 was skipped.");
//! # Ok::<(), yeqontur::Refusal>(())
//! ```
//!
//! # Rules of your own
//!
//! Everything that can be true has a number from 0 to 255, an atom, which the program hands out. A rule says when an
//! atom holds, and a rule without entries is a fact. That is [`Table`].
//!
//! ```
//! use yeqontur::{Label, Table, Validity};
//!
//! let mut table = Table::new();
//! table.add(1, &[2], &[3])?; // 1 if 2, and not 3
//! table.add(2, &[], &[])?; // 2
//! assert_eq!(table.label(1)?, Label::In { depth: 2, slot: 0 });
//!
//! let slot = table.add(3, &[], &[])?; // 3
//! assert_eq!(table.label(1)?, Label::Out);
//! assert_eq!(table.spoiler(0)?.to_string(), "is blocked by 3");
//!
//! table.remove(slot)?;
//! assert_eq!(table.spoiler(0)?, Validity::Valid);
//! # Ok::<(), yeqontur::Refusal>(())
//! ```
//!
//! # Errors
//!
//! A call that can be refused answers a `Result` with a [`Refusal`], which has a number, words and an advice, and
//! leaves the table as it was. Reading a file can also fail as the system says: that is [`LoadError`]. Both print as a
//! sentence for a person, and both are errors of the standard library, so that `?` hands them on.
//!
//! ```
//! use yeqontur::{Refusal, Table};
//!
//! let mut table = Table::new();
//! let refusal = table.add(1, &[], &[1]).unwrap_err(); // 1 if not 1
//! assert_eq!(refusal, Refusal::NegativeCycle);
//! assert_eq!(refusal.number(), 7);
//! assert_eq!(refusal.words(), "the rule would close a loop through a negation");
//! assert_eq!(table, Table::new());
//! ```
//!
//! # Threads and stack
//!
//! A call keeps nothing and shares nothing, so any number of threads may call at once, and every type here may be sent
//! to another thread. A table that threads share and change stands behind a lock, such as a
//! [`Mutex`](std::sync::Mutex): a change needs `&mut`, so the compiler sees to it. A thread with 128 KB of stack can
//! make any call (in a debug build those of a checklist ask for 160 KB), and what the caller keeps comes on top, 7 KB
//! for each table; the deepest tree ([`Table::why`]) needs up to 384 KB in a release build and 1.5 MB in a debug
//! build.
//!
//! # Versions
//!
//! [`VERSION`] is that of this crate, [`version`] that of the library that is linked. Cases and fields may still come
//! where a type is marked non-exhaustive: there a `match` has a further arm, and the pattern of a struct ends with `..`;
//! the fields of a case stay. The other types are complete: an atom has one of three labels, a rule has two lists, and a
//! file of a checklist one of three states. [`raw`] has the structs of `yeqontur.h`, field for field.
//!
//! The guide, with whole programs, is `docs/GUIDE.md` of the repository; it is installed in `share/doc/yeqontur`.

#![deny(missing_docs)]
#![deny(unsafe_code)] // but for `raw`
#![doc(test(attr(deny(warnings))))] // an example is as clean as the crate

mod checklist;
mod disk;
mod label;
mod layout;
pub mod raw;
mod refusal;
mod rule;
mod table;
mod why;

pub use checklist::{Atoms, Checklist, FileState};
pub use disk::{replace_file, LoadError};
pub use label::Label;
pub use raw::{layout, version, List};
pub use refusal::{advice, words, Refusal};
pub use rule::{Rule, Side, Validity};
pub use table::Table;
pub use why::{Because, Stop, Stopped, Why};

/// The version of this crate: major, minor and patch. Crate and library have the same.
///
/// ```
/// let parts: Vec<&str> = yeqontur::VERSION.split('.').collect();
/// assert_eq!(parts.len(), 3);
/// ```
pub const VERSION: &str = env!("CARGO_PKG_VERSION");
