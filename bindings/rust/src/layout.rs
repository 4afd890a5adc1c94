//! Sizes and offsets of the boundary's structs, held while the crate is built: they are those that
//! `include/yeqontur.h` has on x86-64, and a table has no padding.

use crate::raw::{Accepted, Change, Completeness, LabelAnswer};
use crate::raw::{ListAnswer, RuleAnswer, SpoilerAnswer, Table, LAYOUT};
use std::mem::{align_of, offset_of, size_of};

/// The struct's fields stand at these offsets, and it has this size and alignment.
macro_rules! lies {
    ($name:ident, $size:literal, $align:literal, $($field:ident $offset:literal),*) => {
        const _: () = assert!(size_of::<$name>() == $size && align_of::<$name>() == $align);
        $(const _: () = assert!(offset_of!($name, $field) == $offset);)*
    };
}

// The layout of these lines. Whoever changes one of them gives it the next number, in the header and the library too.
const _: () = assert!(LAYOUT == 2);

lies!(Table, 7168, 2, words 0);
lies!(Change, 7176, 4, refused 0, slot 4, table 8);
lies!(Accepted, 7172, 4, refused 0, table 4);
lies!(LabelAnswer, 16, 4, refused 0, state 4, depth 8, slot 12);
lies!(RuleAnswer, 52, 4, refused 0, head 4, muted 8, positives 12, negatives 16, entries 20);
lies!(SpoilerAnswer, 16, 4, refused 0, spoiled 4, atom 8, place 12);
lies!(Completeness, 8, 4, refused 0, complete 4);
// Four bytes between the two fields are nobody's; only this answer has such.
lies!(ListAnswer, 16, 8, refused 0, count 8);
