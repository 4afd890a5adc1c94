//! The language of the sheet.

use oracle::calls::{self, Answer, Call, Lent};
use oracle::command::{read_line, Command, Line};
use oracle::generate::lines::FORMLESS;
use oracle::generate::sheets::{sheet, Flavour};
use oracle::limits::INPUT_BYTES;
use oracle::questions::Refusal;
use oracle::random::Random;
use oracle::sheet::{run, shown};
use oracle::table::RawTable;

fn printed(input: &[u8]) -> String {
    String::from_utf8(run(input)).expect("what is printed is plain text")
}

#[test]
fn the_worked_sheet_prints_byte_for_byte_what_the_document_shows() {
    let input = b"A 1 : 2\nA 2 : ! 3\nA 4 : 1\nA 3 :\nL\nR 3\nL\nW 1\nW 3\n";
    let output = "slot 0\nslot 1\nslot 2\nslot 3\n1 out\n2 out\n3 in 1 3\n4 out\nremoved 3\n\
                  1 in 2 0\n2 in 1 1\n3 out\n4 in 3 2\nwhy 1 0\nline 9 refused 12\n";
    assert_eq!(printed(input), output);
    assert_eq!(
        printed(&input[..input.len() - 1]),
        output,
        "the last newline may be missing"
    );
}

#[test]
fn blank_lines_print_nothing_but_count() {
    assert_eq!(printed(b""), "");
    assert_eq!(printed(b"\n"), "");
    assert_eq!(
        printed(b"\n   \nx\n\nx"),
        "line 3 refused 13\nline 5 refused 13\n"
    );
    assert_eq!(
        printed(&[&[b' '; 120][..], b"\nx"].concat()),
        "line 2 refused 13\n"
    );
    assert_eq!(printed(&[b' '; 121]), "line 1 refused 14\n");
}

#[test]
fn a_line_of_120_bytes_is_read_and_one_of_121_is_refused_whatever_it_holds() {
    for (length, command, expected) in [
        (120, "A 1 :", "slot 0\n"),
        (121, "A 1 :", "line 1 refused 14\n"),
        (121, "x", "line 1 refused 14\n"),
    ] {
        let line = format!("{command:length$}\n");
        assert_eq!(printed(line.as_bytes()), expected, "{command} at {length}");
    }
    assert_eq!(
        printed(&[&[b'x'; 9_999][..], b"\nL1"].concat()),
        "line 1 refused 14\nline 2 refused 13\n"
    );
    assert_eq!(
        printed(format!("{:119}\r\n", "L").as_bytes()),
        "line 1 refused 13\n"
    );
    assert_eq!(
        printed(format!("{:120}\r\n", "L").as_bytes()),
        "line 1 refused 14\n"
    );
}

#[test]
fn lines_without_the_form_are_refused_before_the_call_is_asked() {
    for line in FORMLESS {
        assert_eq!(
            printed(line),
            "line 1 refused 13\n",
            "{:?}",
            String::from_utf8_lossy(line)
        );
    }
}

#[test]
fn numbers_that_read_are_judged_by_the_call() {
    let judged = [
        ("A 256 :", 1),
        ("A 65536 :", 1),
        ("A 99999 :", 1),
        ("A 1 : 2 3 4 5 6 7 8 9 10", 2),
        ("A 1 : 65537", 3),
        ("A 1 : 1 1", 4),
        ("A 1 : ! 1", 7),
        ("R 256", 8),
        ("R 65536", 8),
        ("R 0", 9),
        ("W 256", 10),
        ("W 65537", 10),
        ("W 1", 12),
    ];
    for (line, number) in judged {
        assert_eq!(
            printed(line.as_bytes()),
            format!("line 1 refused {number}\n"),
            "{line}"
        );
    }
    assert_eq!(printed(b"A 0 :\nA 0 :\n"), "slot 0\nline 2 refused 5\n");
}

#[test]
fn spaces_may_stand_anywhere_between_tokens() {
    assert_eq!(
        printed(b"   A   1  :   2   !   \n A 1 : 2\n  L  \n"),
        "slot 0\nline 2 refused 5\n1 out\n2 out\n"
    );
}

#[test]
fn fifty_seven_entries_fit_in_a_line_and_still_have_the_form() {
    let line = format!("A 1 :{}", " 2".repeat(57));
    assert_eq!(line.len(), 119);
    assert_eq!(printed(line.as_bytes()), "line 1 refused 2\n");
}

#[test]
fn input_past_the_limit_is_not_there() {
    let mut input = vec![b'\n'; INPUT_BYTES - 4];
    input.extend(b"R 12\nL1\n");
    assert_eq!(
        printed(&input),
        format!("line {} refused 9\n", INPUT_BYTES - 3)
    );
    input.insert(0, b'\n');
    assert_eq!(
        printed(&input),
        format!("line {} refused 9\n", INPUT_BYTES - 2),
        "R 1 is left"
    );
    input.insert(0, b'\n');
    assert_eq!(
        printed(&input),
        format!("line {} refused 13\n", INPUT_BYTES - 1),
        "R and a space are left"
    );
    input.splice(0..0, *b"\n\n");
    assert_eq!(printed(&input), "", "nothing is left");
}

/// What the sheet prints, by the calls over a raw table instead of the book.
fn printed_by_calls(input: &[u8]) -> String {
    let mut table = RawTable::empty();
    let mut lines: Vec<&[u8]> = input[..input.len().min(INPUT_BYTES)]
        .split(|&byte| byte == b'\n')
        .collect();
    if lines.last() == Some(&&b""[..]) {
        lines.pop();
    }
    let mut output = String::new();
    for (place, line) in lines.into_iter().enumerate() {
        let answer = match read_line(line) {
            Line::Blank => Ok(String::new()),
            Line::LineTooLong => Err(14),
            Line::NotACommand => Err(13),
            Line::Command(command) => called(&mut table, &command).map_err(Refusal::number),
        };
        output += &answer.unwrap_or_else(|number| format!("line {} refused {number}\n", place + 1));
    }
    output
}

fn called(table: &mut RawTable, command: &Command) -> Result<String, Refusal> {
    match command {
        Command::Change(call) => {
            let answer = call.make(table, &mut Lent::default())?;
            Ok(match (answer, call) {
                (Answer::Slot(slot), _) => format!("slot {slot}\n"),
                (_, Call::Replace { slot, .. }) => format!("replaced {slot}\n"),
                (_, Call::Remove { slot }) => format!("removed {slot}\n"),
                _ => panic!("{call:?}"),
            })
        }
        Command::Why { atom } => {
            let mut buffer = [0; 256];
            let count = calls::reason(table, *atom, &mut buffer)? as usize;
            let slots: Vec<String> = buffer[..count].iter().map(u32::to_string).collect();
            Ok(format!("why {}\n", slots.join(" ")))
        }
        Command::Labels => {
            let lines = (0..256).map(|atom| shown(atom, calls::label(table, atom).unwrap()) + "\n");
            Ok(lines.filter(|line| !line.contains("absent")).collect())
        }
    }
}

#[test]
fn the_book_and_the_calls_print_the_same_for_sheets_of_every_flavour() {
    let mut random = Random::seeded(81);
    let flavours = [
        Flavour::Empty,
        Flavour::Story,
        Flavour::Mixed,
        Flavour::LongLines,
        Flavour::Garbage,
        Flavour::Cut,
    ];
    for round in 0..90 {
        let input = sheet(&mut random, flavours[round % flavours.len()]);
        assert_eq!(
            printed(&input),
            printed_by_calls(&input),
            "{:?}",
            flavours[round % flavours.len()]
        );
    }
    for flavour in [Flavour::Crowded, Flavour::Chain] {
        let input = sheet(&mut random, flavour);
        assert_eq!(printed(&input), printed_by_calls(&input), "{flavour:?}");
    }
}
