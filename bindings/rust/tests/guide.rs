//! What the guide and the README show is what stands in the files, and what the guide's commands print.

use std::path::PathBuf;
use std::process::Command;
use yeqontur::Refusal;

fn root() -> PathBuf {
    PathBuf::from(env!("CARGO_MANIFEST_DIR")).join("../..")
}

fn file(path: &str) -> String {
    std::fs::read_to_string(root().join(path)).expect(path)
}

/// What a command prints, which must succeed.
fn printed(command: &str) -> String {
    let mut shell = Command::new("sh");
    let ran = shell.arg("-c").arg(command).current_dir(root()).output();
    let ran = ran.expect("a shell");
    let errors = String::from_utf8_lossy(&ran.stderr);
    assert!(ran.status.success(), "{command}{errors}");
    String::from_utf8_lossy(&ran.stdout).into_owned()
}

/// The guide's blocks of a kind.
fn blocks(kind: &str) -> Vec<String> {
    let guide = file("docs/GUIDE.md");
    let start = format!("\n```{kind}\n");
    let starts = guide.split(&start).skip(1);
    let block = |rest: &str| rest[..rest.find("```").expect("an end")].to_string();
    starts.map(block).collect()
}

#[test]
fn the_programs_of_the_guide_are_the_files() {
    let rust = ["checklist", "guide", "restart", "shared"];
    let rust = rust.map(|name| file(&format!("bindings/rust/examples/{name}.rs")));
    assert_eq!(blocks("rust"), rust);
    let c = ["deposit", "guide", "restart", "shared"];
    let c = c.map(|name| file(&format!("bindings/c/{name}.c")));
    assert_eq!(blocks("c"), c);
}

/// The first command makes the library, which the tests are linked with already. Each program is then run in Rust and
/// in C, and both print what is shown once.
#[test]
fn the_commands_of_the_guide_print_what_it_says() {
    let shown = blocks("text");
    let commands = blocks("sh");
    assert_eq!((shown.len(), commands.len()), (4, 9));
    assert_eq!(shown[0], file("examples/checklist.out"));
    assert_eq!(commands[0], "./build yeqontur\n");
    for (i, command) in commands[1..].iter().enumerate() {
        assert_eq!(printed(command), shown[i / 2], "{command}");
    }
}

/// What each of the indented commands writes to the file behind `-o`.
fn written() -> Vec<String> {
    let guide = file("docs/GUIDE.md");
    let paragraphs = guide.split("\n\n");
    let commands = paragraphs.filter(|text| text.starts_with("    cargo run "));
    let written = |command: &str| {
        assert_eq!(printed(command), "", "{command}");
        let (_, rest) = command.split_once("-o ").expect("a path");
        file(rest.split_whitespace().next().expect("a path"))
    };
    commands.map(written).collect()
}

/// The second and the third ask the same, without and with a muted rule, and the last asks that for the tree.
#[test]
fn the_drawing_commands_of_the_guide_draw_what_it_says() {
    let written = written();
    assert_eq!(written.len(), 4);
    assert!(written[0] == file("examples/complete.svg"));
    let (asks, muted) = (
        ">the rule in slot 1 asks for<",
        ">the rule in slot 1 is muted<",
    );
    let said = |text: &String| (text.contains(asks), text.contains(muted));
    assert_eq!(said(&written[1]), (true, false));
    assert_eq!(said(&written[2]), (false, true));
    assert_eq!(written[3], file("examples/skipped.json"));
    assert_eq!(written[3], blocks("json")[0]);
    assert_eq!(blocks("sheet"), [file("examples/skipped.sheet")]);
}

/// The lines in which the two clients differ.
#[test]
fn the_readme_quotes_the_story() {
    let story = file("examples/checklist.out");
    let lines = story.lines().skip(3).take(4);
    let quoted: String = lines.map(|line| format!("    {line}\n")).collect();
    assert!(file("README.md").contains(&format!("prints:\n\n{quoted}\n")));
}

/// A refusal as the header lists it.
#[derive(Debug)]
struct Listed {
    number: u32,
    /// `HEAD_TOO_LARGE`.
    name: String,
    words: String,
    advice: String,
}

/// The header's list of refusals, which is where their words stand: `EACH(1, HEAD_TOO_LARGE, "words", "advice")`. Each
/// line but the last ends with a backslash, so the list's end is the end of the macro.
fn listed() -> Vec<Listed> {
    let header = file("include/yeqontur.h");
    let start = "#define YEQONTUR_REFUSALS(EACH)";
    let lines = header.lines().skip_while(|line| !line.starts_with(start));
    let mut ends = false;
    let list: String = lines
        .take_while(|line| !std::mem::replace(&mut ends, !line.ends_with('\\')))
        .collect();
    let entry = |text: &str| {
        let quoted: Vec<&str> = text.split('"').collect();
        let names: Vec<&str> = quoted[0].split(',').map(str::trim).collect();
        Listed {
            number: names[0].parse().expect(text),
            name: names[1].to_string(),
            words: quoted[1].to_string(),
            advice: quoted[3].to_string(),
        }
    };
    list.split("EACH(").skip(1).map(entry).collect()
}

/// What a sheet is told of a line; no call answers it.
const OF_SHEETS: [u32; 2] = [13, 14];

/// The name in Rust: `HeadTooLarge` of `HEAD_TOO_LARGE`.
fn in_rust(name: &str) -> String {
    let word = |word: &str| word[..1].to_string() + &word[1..].to_lowercase();
    name.split('_').map(word).collect()
}

#[test]
fn the_header_lists_the_refusals_by_number() {
    let numbers: Vec<u32> = listed().iter().map(|refusal| refusal.number).collect();
    assert!(numbers.into_iter().eq(1..=22));
}

#[test]
fn the_refusals_of_the_crate_are_those_of_the_header() {
    let header = listed();
    let of_calls = header.iter().filter(|r| !OF_SHEETS.contains(&r.number));
    assert_eq!(of_calls.clone().count(), Refusal::ALL.len());
    for (listed, &refusal) in of_calls.zip(Refusal::ALL) {
        assert_eq!(refusal.number(), listed.number);
        assert_eq!(refusal.words(), listed.words);
        assert_eq!(refusal.advice(), listed.advice);
        let name = format!("{refusal:?}");
        let (name, _) = name.split_once(' ').unwrap_or((&name, "")); // 11 has a field
        assert_eq!(name, in_rust(&listed.name));
    }
}

/// The names that a source gives to numbers, an arm of a `match` for each: `Refusal::HeadTooLarge => 1,`, or
/// `Line::NotACommand => Err(13),`.
fn numbered(path: &str, of: &str) -> Vec<(u32, String)> {
    let text = file(path);
    let arm = |line: &str| {
        let (name, number) = line.trim().strip_prefix(of)?.split_once(" => ")?;
        let end = name.find([' ', '(']).unwrap_or(name.len()); // 11 has a field
        let number = number
            .trim_start_matches("Err(")
            .trim_end_matches([')', ',']);
        Some((number.parse().ok()?, name[..end].to_string()))
    };
    let mut arms: Vec<(u32, String)> = text.lines().filter_map(arm).collect();
    arms.sort();
    arms
}

#[test]
fn a_refusal_has_one_name_and_number_in_header_crate_slow_engine_and_proved_code() {
    let named = |listed: Listed| (listed.number, in_rust(&listed.name));
    let all = listed().into_iter().map(named);
    let (of_sheets, of_calls): (Vec<_>, Vec<_>) =
        all.partition(|(number, _)| OF_SHEETS.contains(number));
    for path in [
        "bindings/rust/src/refusal.rs",
        "oracle/src/questions.rs",
        "crates/refusals/src/lib.rt",
    ] {
        assert_eq!(numbered(path, "Refusal::"), of_calls, "{path}");
    }
    assert_eq!(numbered("oracle/src/sheet.rs", "Line::"), of_sheets);
}

#[test]
fn words_and_advice_of_a_number_are_those_of_the_header() {
    for listed in listed() {
        assert_eq!(yeqontur::words(listed.number), Some(&listed.words[..]));
        assert_eq!(yeqontur::advice(listed.number), Some(&listed.advice[..]));
    }
    for number in [0, 23, u32::MAX] {
        assert_eq!(yeqontur::words(number), None);
        assert_eq!(yeqontur::advice(number), None);
    }
}

/// Row by row, so that none is missing and none is too many.
#[test]
fn the_guide_s_table_of_refusals_is_the_header_s_list() {
    let guide = file("docs/GUIDE.md");
    let (_, table) = guide
        .split_once("| number | in Rust | in C | what is the matter | what to do |\n|---|---|---|---|---|\n")
        .expect("the table");
    let (table, _) = table.split_once("\n\n").expect("its end");
    let row = |listed: Listed| {
        let Listed {
            number,
            name,
            words,
            advice,
        } = listed;
        let rust = match OF_SHEETS.contains(&number) {
            true => "-".to_string(),
            false => format!("`{}`", in_rust(&name)),
        };
        format!("| {number} | {rust} | `YEQONTUR_REFUSED_{name}` | {words} | {advice} |")
    };
    let rows: Vec<String> = listed().into_iter().map(row).collect();
    assert_eq!(table.lines().collect::<Vec<_>>(), rows);
}

/// They call `yeqontur_words` of the header. What a test says that it expects is not a copy.
#[test]
fn no_c_program_copies_the_words() {
    let programs = std::fs::read_dir(root().join("bindings/c")).expect("the programs");
    for program in programs {
        let path = program.expect("a program").path();
        let text = std::fs::read_to_string(&path).expect("a text");
        let lines = text.lines().filter(|line| !line.contains(" expect("));
        let text: String = lines.collect();
        for Listed { words, .. } in listed() {
            let copy = format!("\"{words}\"");
            assert!(!text.contains(&copy), "{}: {words}", path.display());
        }
    }
}

#[test]
fn a_refusal_prints_its_number_its_words_and_what_to_do() {
    assert_eq!(
        Refusal::TableFull.to_string(),
        "refused 6: no slot is free; remove a rule that is no longer needed, or open a second table"
    );
    let short: Box<dyn std::error::Error> = Refusal::BufferTooShort { needed: 5 }.into();
    assert!(short
        .to_string()
        .starts_with("refused 11: the buffer is too short (5 needed); "));
}
