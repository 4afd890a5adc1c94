//! The engine's phases: what the slots of a table keep, found anew, and question 15; and how many rounds find the in
//! atoms.

use crate::clock::Pair;
use crate::{plain, shapes};
use compare::boundary;
use std::hint::black_box;
use yeqontur::raw::Table;

/// How many layers the table has, how many rounds these have together, and how many the one with the most has.
fn rounds(table: &Table) -> String {
    let told = boundary::rounds(table).rounds;
    let layers = told.iter().filter(|&&count| count > 0).count();
    let together: u32 = told.iter().map(|&count| u32::from(count)).sum();
    let most = told.iter().max().expect("a layer");
    format!("{layers:9}{together:8}{most:7}")
}

pub fn bench() {
    println!("Phases of the engine: microseconds, and the ratio to plain Rust. How many layers a table has, how many");
    println!("rounds over the slots find its in atoms, and the most that one layer has.");
    println!(
        "{:32}{:>9}{:>7}{:>9}{:>7}{:>9}{:>8}{:>7}",
        "table", "labels", "ratio", "sound", "ratio", "layers", "rounds", "most"
    );
    for (name, table) in shapes::all() {
        assert!(boundary::sound(&table) && plain::sound(&table));
        let labels = Pair::timed(
            || boundary::labels(black_box(&table)),
            || {
                let mut table = *black_box(&table);
                plain::relabel(plain::slots_mut(&mut table));
                table
            },
        );
        let sound = Pair::timed(
            || boundary::sound(black_box(&table)),
            || plain::sound(black_box(&table)),
        );
        println!(
            "{name:32}{}{}{}",
            labels.shown(),
            sound.shown(),
            rounds(&table)
        );
    }
}

#[cfg(test)]
mod tests {
    use crate::plain;
    use compare::boundary::{self, from_slow};
    use oracle::generate::mixed_table;
    use oracle::random::Random;

    #[test]
    fn plain_rust_finds_the_same_tables_sound() {
        let mut random = Random::seeded(1);
        let mut counts = [0; 2];
        for _ in 0..20_000 {
            let table = from_slow(&mixed_table(&mut random));
            let sound = plain::sound(&table);
            assert_eq!(sound, boundary::sound(&table));
            counts[usize::from(sound)] += 1;
        }
        assert!(counts.iter().all(|&count| count > 2_000), "{counts:?}");
    }
}
