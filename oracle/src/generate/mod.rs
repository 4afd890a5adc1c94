//! Seeded generators of what engines are compared on.

pub mod again;
pub mod calls;
pub mod checklists;
pub mod damage;
pub mod edges;
pub mod faults;
mod file_bytes;
mod file_records;
pub mod files;
pub mod kept_faults;
pub mod lines;
pub mod lists;
mod mark_faults;
pub mod marks;
pub mod muting_kinds;
pub mod mutings;
pub mod programs;
pub mod replacement_kinds;
pub mod replacements;
pub mod sheets;
pub mod words;

use crate::labels::Labelled;
use crate::random::Random;
use crate::rules::Program;
use crate::table::RawTable;

/// The sound table of a program without a loop through a negation.
pub fn table_of(program: Program) -> RawTable {
    RawTable::keeping(&Labelled::of(program))
}

/// A sound table of a random flavour, one time in eight an edge table. Every second one has muted
/// rules.
pub fn sound_table(random: &mut Random) -> RawTable {
    let program = if random.below(8) == 0 {
        random.pick(&edges::programs()).clone()
    } else {
        let flavour = *random.pick(&programs::FLAVOURS);
        programs::program(random, flavour)
    };
    table_of(marks::any_marked(random, program))
}

/// A table for the question of soundness: sound, damaged in one field, with a fault, or with sound rules and a slot that
/// keeps what it should not.
pub fn mixed_table(random: &mut Random) -> RawTable {
    match random.below(12) {
        0..=3 => sound_table(random),
        4..=6 => {
            let field = *random.pick(&damage::FIELDS);
            let table = sound_table(random);
            damage::damaged(random, &table, field)
        }
        7..=8 => kept_wrong(random),
        _ => {
            let fault = *random.pick(&faults::FAULTS);
            faults::faulty(random, fault)
        }
    }
}

/// A table in which what a slot keeps is wrong in some way, where it has room for that.
fn kept_wrong(random: &mut Random) -> RawTable {
    let wrong = *random.pick(&kept_faults::WRONGS);
    let flavour = *random.pick(&programs::FLAVOURS);
    let program = programs::program(random, flavour);
    let labelled = Labelled::of(marks::any_marked(random, program));
    let table = kept_faults::kept_wrong(random, &labelled, wrong);
    table.unwrap_or_else(|| RawTable::keeping(&labelled))
}
