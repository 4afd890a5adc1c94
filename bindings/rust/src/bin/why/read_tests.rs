//! Sheets, names and the words of the command line are read as the guide says, and what cannot be read is told.

use crate::arguments::{self, usage, Asked, Subject};
use crate::sheet::{self, Names, Refused, MOST};
use crate::{of_checklist, of_table};
use std::ffi::OsString;
use std::path::PathBuf;
use yeqontur::Table;

/// The table of a sheet, none of whose lines is refused.
pub fn rules(sheet: &str) -> Table {
    let (table, refused) = sheet::read(sheet.as_bytes());
    assert_eq!(refused, [], "{sheet}");
    table
}

/// The picture of such a sheet's atom, or what is wrong.
pub fn picture(sheet: &str, atom: &str, names: &str, muted: &[String]) -> Result<String, String> {
    let shown = of_table(rules(sheet), atom, sheet::names(names)?, muted)?;
    Ok(shown.written(false))
}

pub fn checklist_picture(words: &[String]) -> Result<String, String> {
    Ok(of_checklist(words)?.written(false))
}

fn words(text: &str) -> Vec<String> {
    text.split(' ').map(str::to_string).collect()
}

/// The refused lines of a sheet, each as its number and that of the refusal.
fn refused(sheet: &[u8]) -> Vec<(usize, u32)> {
    let (_, refused) = sheet::read(sheet);
    let pair = |refused: &Refused| (refused.line, refused.number);
    refused.iter().map(pair).collect()
}

/// Lines and the numbers of their refusals, 0 where there is none, behind two rules: every question can be asked.
const LINES: [(&str, u32); 31] = [
    ("A 256 :", 1),
    ("A 1 : 1 2 3 4 5 6 7 8 9", 2),
    ("A 1 : 256", 3),
    ("A 1 : 3 3", 4),
    ("A 1 : 2", 5),
    ("P 0 2 :", 5),
    ("P 1 2 : ! 1", 7),
    ("R 256", 8),
    ("P 2 1 :", 9),
    ("R 2", 9),
    ("W 256", 10),
    ("W 99999", 10),
    ("W 3", 12),
    ("W 2", 0),
    ("L", 0),
    ("  A  9  :  ! ", 0),
    ("A 1", 13),
    ("P 0 1", 13),
    ("P 0 : 1", 13),
    ("P : 0 1", 13),
    ("P 0 1 : ! 2 ! 3", 13),
    ("A 1 : x", 13),
    ("A 01 :", 13),
    ("A 100000 :", 13),
    ("A +1 :", 13),
    ("L\r", 13),
    ("\r", 13),
    ("\tL", 13),
    ("L L", 13),
    ("B", 13),
    ("", 0),
];

fn refuses(line: &str, number: u32) {
    let told = refused(format!("A 1 : 2\nA 2 :\n{line}\nL\n").as_bytes());
    let expected: &[(usize, u32)] = if number == 0 { &[] } else { &[(3, number)] };
    assert_eq!(told, expected, "{line}");
}

#[test]
fn lines_are_refused_as_the_sheet_program_refuses_them() {
    for (line, number) in LINES {
        refuses(line, number);
    }
}

#[test]
fn a_line_of_more_than_120_bytes_is_refused_whatever_it_holds() {
    let spaces = " ".repeat(115);
    for (start, number) in [("     ", 0), ("A 9 :", 0), ("W 300", 10), ("hello", 13)] {
        refuses(&format!("{start}{spaces}"), number);
        refuses(&format!("{start}{spaces} "), 14);
    }
}

#[test]
fn the_256th_rule_has_room_and_the_next_has_none() {
    let full: String = (0..256).map(|atom| format!("A {atom} :\n")).collect();
    assert_eq!(refused(full.as_bytes()), []);
    assert_eq!(refused((full + "A 0 : 1").as_bytes()), [(257, 6)]);
}

#[test]
fn bytes_that_are_no_text_are_a_line_like_any_other() {
    assert_eq!(
        refused(b"\xff\xfe\n\0\n\xc2\xa0L\nL"),
        [(1, 13), (2, 13), (3, 13)]
    );
    assert_eq!(refused(b"A 1 :\r\nL\r\n"), [(1, 13), (2, 13)]);
}

#[test]
fn a_refused_line_changes_nothing_and_the_next_is_read() {
    let (table, refused) = sheet::read(b"A 1 : 2\nA 2 : ! 1\nhello\n\nA 2 :\nW 3\nR 7\nA 3 : 1");
    let lines: Vec<usize> = refused.iter().map(|refused| refused.line).collect();
    assert_eq!(lines, [2, 3, 6, 7]);
    assert_eq!(table, rules("A 1 : 2\nA 2 :\nA 3 : 1\n"));
    assert_eq!(
        refused[2].to_string(),
        "line 6 refused 12: the atom is not in; ask for its label first: only an in atom has a reason"
    );
}

/// The last line that is read is cut in its midst, and reads as another command.
#[test]
fn a_sheet_is_read_up_to_a_limit() {
    let mut sheet = "\n".repeat(MOST - 8) + "A 1 : 23\nhello\nA 2 :\n";
    assert_eq!(refused(sheet.as_bytes()), []);
    assert_eq!(sheet::read(sheet.as_bytes()).0, rules("A 1 : 23"));
    sheet.insert(0, '\n');
    assert_eq!(sheet::read(sheet.as_bytes()).0, rules("A 1 : 2"));
}

#[test]
fn names_are_read_from_any_editor() {
    let expected: Names = [(1, "a b".to_string()), (255, "ä".to_string())].into();
    for text in [
        "1 a b\n255 ä\n",
        "1 a b\r\n255 ä\r\n",
        "\u{feff}1 a b\n\n  255\tä  ",
        "\r\n  255 ä\n \t\n1   a b",
    ] {
        assert_eq!(sheet::names(text), Ok(expected.clone()), "{text:?}");
    }
    assert_eq!(sheet::names(""), Ok(Names::new()));
}

#[test]
fn a_line_of_names_that_is_wrong_is_told_with_its_number() {
    let form = "a line of names is an atom's number, a blank, and the name";
    let large =
        "atom 256 refused 10: the atom number is not below 256; number your atoms from 0 to 255";
    let no_text = "not UTF-8: save the names as UTF-8";
    for (line, told) in [
        (&b"one 1"[..], form),
        (b"4", form),
        (b"4 \r", form),
        (b"4name", form),
        (b"-4 name", form),
        (b"04 name", form),
        (b"256 name", large),
        (b"4 \xff", no_text),
        (b"3 again", "atom 3 is named already: three"),
    ] {
        let text = [b"1 one\n\n3 three\n", line, b"\n5 five\n"].concat();
        let told = format!("line 4: {told}");
        assert_eq!(sheet::names(&text), Err(told), "{line:?}");
    }
}

#[test]
fn atoms_that_cannot_be_asked_are_told() {
    for (atom, told) in [
        ("one", "not an atom: one; "),
        ("", "not an atom: ; "),
        ("-1", "not an atom: -1; "),
        ("256", "atom 256 refused 10: "),
    ] {
        let shown = of_table(rules("A 1 :"), atom, Names::new(), &[]);
        let sentence = shown.err().expect(atom);
        assert!(sentence.starts_with(told), "{sentence}");
    }
}

#[test]
fn signs_of_svg_in_a_name_are_written_as_text() {
    let text = picture("A 1 :", "1", "1 <a> & b", &[]).expect("a picture");
    assert!(text.contains("&lt;a&gt; &amp; b"));
}

fn read(line: &str) -> Result<Asked, String> {
    let words = line.split(' ').filter(|word| !word.is_empty());
    arguments::read(words.map(OsString::from))
}

fn asked(line: &str) -> (Subject, bool, Option<PathBuf>) {
    match read(line).expect(line) {
        Asked::Tree {
            subject,
            json,
            output,
        } => (subject, json, output),
        Asked::Help => panic!("{line}"),
    }
}

#[test]
fn names_and_slots_to_be_muted_are_read_behind_the_atom() {
    for (rest, names, slots) in [
        ("", None, &[][..]),
        ("muted", None, &[]),
        ("muted 1 2", None, &["1", "2"]),
        ("names", Some("names"), &[]),
        ("names muted", Some("names"), &[]),
        ("names muted 1", Some("names"), &["1"]),
        ("-- -names muted 1", Some("-names"), &["1"]),
    ] {
        let expected = Subject::Sheet {
            sheet: "sheet".into(),
            atom: "7".to_string(),
            names: names.map(PathBuf::from),
            muted: slots.iter().map(|slot| slot.to_string()).collect(),
        };
        assert_eq!(asked(&format!("sheet 7 {rest}")).0, expected);
    }
}

#[test]
fn options_are_read_wherever_they_stand() {
    let marks = || Subject::Checklist(vec!["5".to_string(), "sent".to_string(), "1".to_string()]);
    let path = || Some(PathBuf::from("a.svg"));
    for (line, json, output) in [
        ("checklist 5 sent 1", false, None),
        ("--json checklist 5 sent 1", true, None),
        ("-o a.svg checklist 5 sent 1", false, path()),
        ("--output a.svg --json checklist 5 sent 1", true, path()),
        ("checklist 5 -o a.svg sent 1 --json", true, path()),
        ("-o - checklist 5 sent 1", false, None),
    ] {
        assert_eq!(asked(line), (marks(), json, output), "{line}");
    }
}

#[test]
fn help_is_asked_for_whatever_stands_beside_it() {
    for line in ["--help", "-h", "sheet --help", "--json -o x --help"] {
        assert_eq!(read(line), Ok(Asked::Help), "{line}");
    }
}

#[test]
fn words_that_ask_for_nothing_are_told() {
    for line in [
        "",
        "sheet",
        "--json",
        "sheet 7 names 1",
        "sheet 7 names names muted 1",
        "sheet 7 names Muted 1",
        "-- --json",
    ] {
        assert_eq!(read(line), Err(usage()), "{line}");
    }
}

#[test]
fn options_that_are_wrong_are_told() {
    for (line, told) in [
        ("sheet 7 -o", "the path behind -o is missing"),
        ("-o a -o b sheet 7", "-o stands twice: name one path"),
        ("-x sheet 7", "no such option: -x\nusage: "),
        ("sheet -7", "no such option: -7\nusage: "),
    ] {
        let sentence = read(line).expect_err(line);
        assert!(sentence.starts_with(told), "{sentence}");
    }
}

#[test]
fn a_sheet_is_drawn_with_the_names_of_its_atoms() {
    let skipped = include_str!("../../../../../examples/skipped.sheet");
    let names = include_str!("../../../../../examples/deposit.names");
    let text = picture(skipped, "7", names, &[]).expect("a picture");
    for words in [
        "Why complete is out",
        ">second file skipped<",
        ">blocked by<",
    ] {
        assert!(text.contains(words), "{words}");
    }
}

#[test]
fn checklists_that_cannot_be_read_are_told() {
    for text in [
        "",
        "0",
        "61",
        "five",
        "5 4",
        "5 sent x",
        "5 sent 6",
        "5 sent 0",
        "5 sent 1 1",
        "5 lost 1",
        "5 good x",
        "5 good 0",
        "5 good 6",
        "5 good",
        "5 good 1 sent 2",
    ] {
        assert!(checklist_picture(&words(text)).is_err(), "{text}");
    }
    assert!(checklist_picture(&[]).is_err());
    assert!(checklist_picture(&words("60 skipped")).is_ok());
}

/// What a picture that leaves files out tells to ask for can be asked for.
#[test]
fn a_file_of_a_checklist_can_be_asked_for() {
    let drawn = |text: &str| checklist_picture(&words(text)).expect(text);
    let second = drawn("5 sent 1 skipped 2 good 2");
    assert!(second.contains(">Why file 2 good is out<"), "{second}");
    assert_eq!(drawn("5 sent 1 2 3 4 5 good 5"), drawn("5 sent 1 2 3 4 5"));
    assert!(drawn("5 good 1").contains(">Why file 1 good is out<"));
}

#[test]
fn slots_that_cannot_be_muted_are_told() {
    for (slot, told) in [
        ("x", "not a slot: x"),
        ("-1", "not a slot: -1"),
        ("1", "slot 1 refused 9: "),
        ("256", "slot 256 refused 8: "),
    ] {
        let sentence = picture("A 1 :", "1", "", &words(slot)).expect_err(slot);
        assert!(sentence.starts_with(told), "{sentence}");
    }
    assert!(picture("A 1 :", "1", "", &words("0 0")).is_ok());
}

#[test]
fn a_replaced_rule_is_drawn_in_its_slot() {
    let two = "A 1 : 2\nA 2 :\n";
    let replaced = format!("{two}P 0 1 : 2 ! 3\nP 1 2 : ! 4\n");
    assert_eq!(rules(&replaced), rules("A 1 : 2 ! 3\nA 2 : ! 4"));
    assert_eq!(rules(&format!("{two}P 0 1 : 2")), rules(two));
}
