//! The two programs of files.

use crate::notation::program;
use oracle::file::write;
use oracle::generate::sheets::{sheet, FLAVOURS};
use oracle::limits::INPUT_BYTES;
use oracle::random::Random;
use oracle::saving::{load, save};
use oracle::sheet::run;

fn loaded(input: &[u8]) -> String {
    String::from_utf8(load(input)).expect("what is printed is plain text")
}

#[test]
fn the_saving_program_prints_the_blocks_of_the_table_that_the_sheet_leaves_and_nothing_else() {
    let input = b"A 1 : 2\nx\nA 2 :\nL\nW 1\nA 3 : ! 3\nR 0\nA 4 :\nR 200\n\nA 5 : 2 1 ! 4";
    let left = write(&program(&["4 <", "2 <", "5 < 1 2 !4"]));
    assert_eq!(save(input), left);
    let empty = write(&program(&[]));
    for input in [&b""[..], b"\n", b"L\n", b"A 256 :\n", b"A 1 :\nR 0\n"] {
        assert_eq!(save(input), empty);
    }
}

#[test]
fn the_loading_program_prints_as_l_does_or_refused_and_the_number() {
    let file = write(&program(&["1 < 2", "2 < !3"]));
    assert_eq!(loaded(&file), "1 in 2 0\n2 in 1 1\n3 out\n");
    assert_eq!(loaded(&write(&program(&[]))), "");
    assert_eq!(loaded(b""), "refused 16\n");
    assert_eq!(loaded(&[0; 512]), "refused 17\n");
    assert_eq!(loaded(&[&file[..], &file].concat()), "refused 18\n");
    let mut filler = file.clone();
    filler[490] = 1;
    oracle::file::put_sums_right(&mut filler);
    assert_eq!(loaded(&filler), "refused 19\n");
}

#[test]
fn the_loading_program_lists_atoms_of_muted_rules_as_out() {
    let file = write(&program(&["1 < 2", "~2 <", "3 < !2", "~4 < 3 !5"]));
    assert_eq!(loaded(&file), "1 out\n2 out\n3 in 1 2\n4 out\n5 out\n");
}

#[test]
fn what_one_prints_the_other_lists_as_the_sheet_would() {
    let mut random = Random::seeded(221);
    for round in 0..5 * FLAVOURS.len() {
        let mut input = sheet(&mut random, FLAVOURS[round % FLAVOURS.len()]);
        input.truncate(INPUT_BYTES - 3);
        let printed = run(&input);
        let listed = run(&[&input[..], b"\nL\n"].concat());
        let saved = save(&input);
        assert!(
            listed.ends_with(&load(&saved)) && listed.starts_with(&printed),
            "{:?}",
            FLAVOURS[round % FLAVOURS.len()]
        );
        assert_eq!(saved, save(&[&input[..], b"\nL\n"].concat()));
    }
}

#[test]
fn a_sheet_is_cut_for_the_saving_program_as_for_the_sheet_program() {
    let mut input = vec![b'\n'; INPUT_BYTES - 7];
    input.extend(b"A 1 : 23\n");
    assert_eq!(save(&input), write(&program(&["1 < 2"])));
    input.insert(0, b'\n');
    assert_eq!(save(&input), write(&program(&["1 <"])));
}
