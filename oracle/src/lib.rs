//! A separate slow engine: what docs/SPECIFICATION.md defines, computed from its sentences.
//!
//! It is written to be held against the verified engine and shares nothing with it.

pub mod alternation;
pub mod atoms;
pub mod book;
pub mod calls;
pub mod checklist;
pub mod command;
pub mod depth;
mod encoding;
pub mod file;
pub mod generate;
pub mod labels;
pub mod limits;
pub mod loops;
pub mod model;
pub mod questions;
pub mod random;
pub mod relations;
pub mod replay;
pub mod rounds;
pub mod rules;
pub mod saving;
pub mod sheet;
pub mod sound;
pub mod standing;
pub mod strata;
pub mod table;
