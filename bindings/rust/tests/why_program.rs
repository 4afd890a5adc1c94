//! The program `why` as a person runs it: what it draws, what it tells, its exit status, and the file behind `-o`.
#![cfg(unix)] // devices, links and limits are those of Unix

mod common;

use common::program::{came_to, printed, root, run, run_on, why};
use common::{folder, names};
use std::collections::BTreeSet;
use std::ffi::OsStr;
use std::fs::{self, OpenOptions, Permissions};
use std::os::unix::ffi::OsStrExt;
use std::os::unix::fs::{symlink, PermissionsExt};
use std::path::{Path, PathBuf};
use std::process::{Command, Stdio};

const UNWRITTEN: &str = "yeqontur: the output cannot be written";

/// The paths of the example sheets, from the root.
fn sheets() -> Vec<PathBuf> {
    let in_folder = |folder: &'static str| {
        let names = names(&root().join(folder));
        let sheets = names.into_iter().filter(|name| name.ends_with(".sheet"));
        sheets.map(move |name| Path::new(folder).join(name))
    };
    let folders = ["examples", "examples/files"];
    folders.into_iter().flat_map(in_folder).collect()
}

/// The numbers that stand in a sheet, all of its atoms among them.
fn numbers(sheet: &str) -> BTreeSet<u32> {
    let numbers = sheet
        .split_whitespace()
        .filter_map(|word| word.parse().ok());
    numbers.filter(|number| *number < 256).collect()
}

/// What `line 9 refused 12` was told of: the lines of a text that begin so, behind these words, and only so far.
fn refused(text: &str, before: &str) -> Vec<String> {
    let lines = text.lines().filter_map(|line| line.strip_prefix(before));
    let refused = lines.filter(|line| line.starts_with("line "));
    let part = |line: &str| line.split(':').next().map(str::to_string);
    refused.filter_map(part).collect()
}

/// The text of both forms, where the program does what is asked; what it tells of the sheet is the same.
fn both_forms(sheet: &str, atom: u32) -> (String, String, String) {
    let atom = atom.to_string();
    let (drawn, picture, told) = run(&mut why([sheet, &atom]));
    let (listed, tree, told_again) = run(&mut why(["--json", sheet, &atom]));
    assert_eq!((drawn, listed), (Some(0), Some(0)), "{sheet} {atom}");
    assert_eq!(told, told_again);
    (picture, tree, told)
}

/// Draws an example sheet for each of its atoms, and answers how many these are. What the sheet program prints of it
/// stands beside it; of those in the folder of files nothing is printed.
fn draw_every_atom(path: &Path) -> usize {
    let kept = |path: &Path| fs::read_to_string(root().join(path));
    let (name, sheet) = (path.to_str().expect("a name"), kept(path).expect("a sheet"));
    let out = kept(&path.with_extension("out")).ok();
    let out = out.map(|out| refused(&out, ""));
    let atoms = numbers(&sheet);
    for &atom in &atoms {
        let (picture, tree, told) = both_forms(name, atom);
        assert!(picture.starts_with("<svg ") && picture.ends_with("</svg>\n"));
        assert!(picture.contains(&format!("atom {atom}")));
        assert!(tree.contains(&format!(" [\n  {{\"atom\": {atom}, \"label\": ")));
        let told = refused(&told, &format!("{name}: "));
        assert!(out.is_none() || out == Some(told), "{name}");
    }
    atoms.len()
}

#[test]
fn every_example_sheet_is_drawn_for_every_atom() {
    let sheets = sheets();
    let pictures: Vec<usize> = sheets.iter().map(|path| draw_every_atom(path)).collect();
    assert!(pictures.len() >= 12 && pictures.iter().sum::<usize>() > 256);
}

#[test]
fn a_refused_line_is_told_and_the_next_is_read() {
    let sheet = b"A 1 : 2\nhello\nW 2\n\nA 2 :\nR 9";
    let (status, printed, told) = run_on(&mut why(["--json", "-", "1"]), sheet);
    assert_eq!(status, Some(0));
    assert!(
        printed.contains("{\"atom\": 1, \"label\": {\"state\": \"in\", \"depth\": 2, \"slot\": 0}")
    );
    let lines = [
        "standard input: line 2 refused 13: the line is not a command of a sheet; \
         write A, P, R, W or L as the guide shows; a line ends with a newline alone, not with CR LF\n",
        "standard input: line 3 refused 12: the atom is not in; \
         ask for its label first: only an in atom has a reason\n",
        "standard input: line 6 refused 9: the slot holds no rule; \
         look at the rules held now: this one was removed, or never added\n",
    ];
    assert_eq!(told, lines.concat());
}

/// As the sheet program refuses them; without the CR they are read.
#[test]
fn lines_that_end_with_cr_lf_are_refused() {
    let folder = folder("why_cr_lf");
    let (path, text) = (folder.join("a.sheet"), "A 1 : 2\r\nA 2 :\r\n\r\nL\r\n");
    fs::write(&path, text).expect("a sheet");
    let (status, printed, told) = run(why(["--json"]).arg(&path).arg("1"));
    assert_eq!(status, Some(0));
    assert!(printed.contains("{\"atom\": 1, \"label\": {\"state\": \"absent\"}"));
    let expected = [1, 2, 3, 4].map(|line| format!("line {line} refused 13"));
    assert_eq!(refused(&told, &format!("{}: ", path.display())), expected);
    let (_, printed, told) = run_on(
        &mut why(["--json", "-", "1"]),
        text.replace('\r', "").as_bytes(),
    );
    assert!(printed.contains("\"state\": \"in\"") && told.is_empty());
}

#[test]
fn a_wrong_line_of_names_is_told_with_file_and_line() {
    let folder = folder("why_names");
    let path = folder.join("a.names");
    let form = "a line of names is an atom's number, a blank, and the name";
    for (line, told) in [
        (&b"three"[..], form),
        (b"3\r", form),
        (b"300 three", "atom 300 refused 10: the atom number is not below 256; number your atoms from 0 to 255"),
        (b"1 one more", "atom 1 is named already: one"),
        (b"3 \xe4", "not UTF-8: save the names as UTF-8"),
    ] {
        fs::write(&path, [b"1 one\r\n2 two\r\n", line, b"\n"].concat()).expect("names");
        let (status, printed, said) = run(why(["examples/skipped.sheet", "7"]).arg(&path));
        assert_eq!((status, printed.as_str()), (Some(1), ""));
        assert_eq!(said, format!("{}: line 3: {told}\n", path.display()));
    }
    fs::write(&path, "\u{feff}7 whole\r\n").expect("names");
    let (status, printed, said) = run(why(["examples/skipped.sheet", "7"]).arg(&path));
    assert_eq!((status, said.as_str()), (Some(0), ""));
    assert!(printed.contains("whole"));
}

#[test]
fn the_output_file_has_what_would_be_printed() {
    let folder = folder("why_output");
    let (path, link) = (folder.join("a.svg"), folder.join("link.svg"));
    symlink("a.svg", &link).expect("a link");
    for (words, to) in [
        (&["examples/skipped.sheet", "7"][..], &path),
        (
            &[
                "--json",
                "examples/skipped.sheet",
                "7",
                "examples/deposit.names",
            ],
            &path,
        ),
        (&["checklist", "5", "sent", "1"], &link),
    ] {
        let ran = run(why(["--output"]).arg(to).args(words));
        assert_eq!(ran, (Some(0), String::new(), String::new()));
        assert_eq!(fs::read_to_string(&path).expect("a file"), printed(words));
    }
    assert!(link.is_symlink());
    assert_eq!(names(&folder), ["a.svg", "link.svg"]);
}

/// Words that ask for what cannot be, and what is told.
const FAILURES: [(&[&str], &str); 14] = [
    (
        &["none.sheet", "7"],
        "none.sheet: the sheet cannot be read: ",
    ),
    (&["examples", "7"], "examples: the sheet cannot be read: "),
    (
        &["examples/skipped.sheet", "7", "none"],
        "none: the names cannot be read: ",
    ),
    (
        &["examples/skipped.sheet", "7", "examples"],
        "examples: the names cannot be read: ",
    ),
    (
        &["examples/skipped.sheet", "7", "/dev/zero"],
        "/dev/zero: the names cannot be read: ",
    ),
    (
        &["examples/skipped.sheet", "7", "examples/README.md"],
        "examples/README.md: line 1: ",
    ),
    (&["examples/skipped.sheet", "256"], "atom 256 refused 10: "),
    (&["examples/skipped.sheet", "seven"], "not an atom: seven; "),
    (
        &["examples/skipped.sheet", "7", "muted", "9"],
        "slot 9 refused 9: ",
    ),
    (
        &["examples/skipped.sheet", "7", "muted", "x"],
        "not a slot: x; ",
    ),
    (&["checklist", "5", "sent", "6"], "file 6 refused 20: "),
    (&["checklist", "61"], "checklist 61 refused 21: "),
    (&["examples/skipped.sheet"], "usage: why "),
    (
        &["--svg", "examples/skipped.sheet", "7"],
        "no such option: --svg\nusage: ",
    ),
];

/// A folder with an old file in it, and the path of that.
fn old(name: &str) -> (PathBuf, PathBuf) {
    let folder = folder(name);
    let path = folder.join("a.svg");
    fs::write(&path, "old").expect("a file");
    (folder, path)
}

/// Runs the program, which fails and tells this, and leaves the folder and the old file as they were.
fn leaves_the_old(program: &mut Command, folder: &Path, told: &str) {
    let before = names(folder);
    let (status, printed, said) = run(program);
    assert_eq!((status, printed.as_str()), (Some(1), ""), "{told}");
    assert!(said.starts_with(told), "{said}");
    assert_eq!(
        fs::read_to_string(folder.join("a.svg")).expect("a file"),
        "old"
    );
    assert_eq!(names(folder), before);
}

#[test]
fn the_output_file_stays_as_it_was_where_anything_fails() {
    let (folder, path) = old("why_fails");
    for (words, told) in FAILURES {
        leaves_the_old(why(["-o"]).arg(&path).args(words), &folder, told);
        leaves_the_old(why(["--json", "-o"]).arg(&path).args(words), &folder, told);
    }
}

#[test]
fn an_output_that_cannot_be_written_is_told_and_the_old_file_stays() {
    let (folder, path) = old("why_unwritten");
    let asked = ["examples/skipped.sheet", "7"];
    let told = |path: &Path| format!("{UNWRITTEN}: {}: ", path.display());
    for other in [
        folder.join("none/a.svg"),
        folder.clone(),
        PathBuf::from("/dev/full"),
    ] {
        leaves_the_old(why(["-o"]).arg(&other).args(asked), &folder, &told(&other));
    }
    // As on a full disk, a new file takes no byte.
    let mut full = Command::new("sh");
    full.args(["-c", "trap '' XFSZ; ulimit -f 0; exec \"$0\" \"$@\""]);
    full.arg(env!("CARGO_BIN_EXE_why"))
        .arg("-o")
        .arg(&path)
        .args(asked);
    leaves_the_old(full.current_dir(root()), &folder, &told(&path));
    fs::set_permissions(&path, Permissions::from_mode(0o444)).expect("another mode");
    leaves_the_old(why(["-o"]).arg(&path).args(asked), &folder, &told(&path));
}

fn full_device() -> Stdio {
    let device = OpenOptions::new().write(true).open("/dev/full");
    device.expect("a device that is full").into()
}

/// Words that print something.
const PRINTS: [&[&str]; 3] = [
    &["examples/deposit.sheet", "7"],
    &["--json", "checklist", "5"],
    &["--help"],
];

#[test]
fn a_full_standard_output_is_told_in_one_line() {
    for words in PRINTS {
        let program = why(words)
            .stdout(full_device())
            .stderr(Stdio::piped())
            .output();
        let (status, _, told) = came_to(program.expect("a program"));
        let mut lines = told
            .lines()
            .filter(|line| !line.starts_with("examples/deposit.sheet: line "));
        assert_eq!(status, Some(1));
        assert_eq!((lines.next(), lines.next()), (Some(UNWRITTEN), None));
    }
}

/// There is nobody to tell; the picture is made all the same.
#[test]
fn a_full_standard_error_changes_nothing() {
    let mut program = why(["examples/deposit.sheet", "7"]);
    let ran = program
        .stdout(Stdio::piped())
        .stderr(full_device())
        .output();
    let (status, picture, _) = came_to(ran.expect("a program"));
    assert_eq!(status, Some(0));
    assert!(picture.ends_with("</svg>\n"));
    let mut program = why(["none.sheet", "7"]);
    let ran = program.stderr(full_device()).output().expect("a program");
    assert_eq!(ran.status.code(), Some(1));
}

#[test]
fn a_pipe_that_nobody_reads_ends_it_without_a_word() {
    for words in [PRINTS[1], PRINTS[2]] {
        let (reader, writer) = std::io::pipe().expect("a pipe");
        drop(reader);
        let ran = why(words).stdout(writer).stderr(Stdio::piped()).output();
        let (status, _, told) = came_to(ran.expect("a program"));
        assert_eq!((status, told.as_str()), (Some(1), ""), "{words:?}");
    }
}

#[test]
fn help_is_printed_and_no_words_are_told_the_usage() {
    for words in [&["--help"][..], &["-h"], &["none.sheet", "--help"]] {
        assert!(printed(words).starts_with("usage: why [--json] [-o PATH] checklist "));
    }
    let (status, printed, told) = run(&mut why::<&str>([]));
    assert_eq!((status, printed.as_str()), (Some(1), ""));
    assert!(told.starts_with("usage: why "));
}

#[test]
fn words_that_are_no_text_are_told_or_name_a_file() {
    let word = OsStr::from_bytes(b"\xff");
    for words in [
        [OsStr::new("examples/skipped.sheet"), word],
        [word, OsStr::new("7")],
        [OsStr::new("checklist"), word],
        [OsStr::from_bytes(b"-\xff"), word],
    ] {
        let (status, printed, told) = run(&mut why(words));
        assert_eq!((status, printed.as_str()), (Some(1), ""));
        assert!(told.contains('\u{fffd}'), "{told}");
    }
    let folder = folder("why_no_text");
    let (sheet, picture) = (folder.join(word), folder.join(OsStr::from_bytes(b"\xfe")));
    fs::write(&sheet, "A 1 :").expect("a sheet");
    let (status, _, told) = run(why(["-o"]).arg(&picture).arg(&sheet).arg("1"));
    assert_eq!((status, told.as_str()), (Some(0), ""));
    let drawn = fs::read_to_string(&picture).expect("a picture");
    assert!(drawn.starts_with("<svg "));
}

/// A chain of 256 rules, up to a fact, and up to an atom that nothing gives; the last line is one too many.
#[test]
fn the_deepest_trees_are_drawn() {
    let chain: String = (1..256)
        .map(|atom| format!("A {atom} : {}\n", atom - 1))
        .collect();
    for last in ["A 0 :", "A 0 : 255"] {
        let sheet = format!("{chain}{last}\nA 0 : 1");
        let (status, picture, told) = run_on(&mut why(["-", "255"]), sheet.as_bytes());
        assert_eq!(status, Some(0));
        assert!(picture.starts_with("<svg ") && picture.ends_with("</svg>\n"));
        assert!(told.starts_with("standard input: line 257 refused 6: "));
    }
}
