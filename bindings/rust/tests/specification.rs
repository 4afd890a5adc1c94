//! The specification's numbers: its questions are the header's refusals, its calls ask what the header says, what names
//! a paragraph names one that is there, and its sheet prints what it says.

use std::collections::BTreeSet;
use std::fs;
use std::path::{Path, PathBuf};

fn root() -> PathBuf {
    PathBuf::from(env!("CARGO_MANIFEST_DIR")).join("../..")
}

fn file(path: &str) -> String {
    fs::read_to_string(root().join(path)).expect(path)
}

fn specification() -> String {
    file("docs/SPECIFICATION.md")
}

/// The rows of the table in a paragraph, the cells of each.
fn rows(paragraph: &str) -> Vec<Vec<String>> {
    let text = specification();
    let start = format!("\n**{paragraph}** ");
    let (_, rest) = text.split_once(&start).expect(paragraph);
    let rest = rest.split("\n**").next().expect("a paragraph");
    let lines = rest.lines().filter(|line| line.starts_with('|')).skip(2);
    let cells = |line: &str| {
        let cells = line.trim_matches('|').split(" | ");
        cells.map(|cell| cell.trim().to_string()).collect()
    };
    lines.map(cells).collect()
}

/// What stands between backquotes in a cell.
fn quoted(cell: &str) -> Vec<String> {
    let parts = cell.split('`').skip(1).step_by(2);
    parts.map(str::to_string).collect()
}

/// The numbers of the paragraphs, and those of the sections.
fn paragraphs() -> BTreeSet<String> {
    let text = specification();
    let number = |line: &str| {
        let (number, _) = match line.strip_prefix("## ") {
            Some(heading) => heading.split_once(' ')?,
            None => line.strip_prefix("**")?.split_once("** ")?,
        };
        Some(number.to_string())
    };
    let numbers: Vec<String> = text.lines().filter_map(number).collect();
    let set: BTreeSet<String> = numbers.iter().cloned().collect();
    assert_eq!(set.len(), numbers.len(), "a number stands twice");
    set
}

/// The number of a paragraph or of a section that a word is, whatever marks stand around it.
fn number(word: &str) -> Option<&str> {
    let bare = word.trim_matches(|c: char| !c.is_ascii_digit());
    let (section, paragraph) = bare.split_once('.').unwrap_or((bare, "0"));
    let digits = |text: &str| !text.is_empty() && text.bytes().all(|b| b.is_ascii_digit());
    (digits(section) && digits(paragraph)).then_some(bare)
}

/// The words of a file, without the marks that begin a line of a comment.
fn words(text: &str) -> Vec<&str> {
    let marks = ["--", "//", "///", "//!", "*", "/*", "#"];
    let words = text.split_whitespace();
    words.filter(|word| !marks.contains(word)).collect()
}

/// The paragraphs that a file names: the numbers behind the word "specification".
fn named(text: &str) -> Vec<&str> {
    let words = words(text);
    let mut named = Vec::new();
    for (i, word) in words.iter().enumerate() {
        if !word.to_lowercase().contains("specification") {
            continue;
        }
        let mut rest = words[i + 1..].iter().peekable();
        while let Some(found) = rest.next().and_then(|word| number(word)) {
            named.push(found);
            rest.next_if(|word| ["and", "to"].contains(word));
        }
    }
    named
}

/// The text files of the repository.
fn texts(folder: &Path, found: &mut Vec<(PathBuf, String)>) {
    for entry in fs::read_dir(folder).expect("a folder") {
        let path = entry.expect("an entry").path();
        let name = path.file_name().expect("a name").to_string_lossy();
        if name == "target" || name.starts_with('.') && name != ".ci" {
            continue;
        }
        if path.is_dir() {
            texts(&path, found);
        } else if let Ok(text) = fs::read_to_string(&path) {
            found.push((path, text));
        }
    }
}

fn all_texts() -> Vec<(PathBuf, String)> {
    let mut found = Vec::new();
    texts(&root(), &mut found);
    assert!(found.len() > 1000, "{}", found.len());
    found
}

#[test]
fn the_questions_are_the_refusals_of_the_header() {
    let asked: Vec<u32> = rows("3.2")
        .iter()
        .map(|row| row[0].parse().expect("a number"))
        .collect();
    let header = file("include/yeqontur.h");
    let refusals = header
        .lines()
        .filter_map(|line| line.trim().strip_prefix("EACH("));
    let refusals = refusals.map(|line| line.split(',').next().expect("a number"));
    let refusals: Vec<u32> = refusals
        .map(|number| number.parse().expect("a number"))
        .collect();
    assert_eq!(asked, refusals);
    assert_eq!(asked, Vec::from_iter(1..=22));
}

/// The header says of each call what it asks, in the order of the specification's table.
#[test]
fn each_call_asks_what_the_header_says() {
    let said: Vec<String> = rows("4.4").iter().map(|row| row[2].clone()).collect();
    let header = file("include/yeqontur.h");
    let words = words(&header);
    let places = words
        .iter()
        .enumerate()
        .filter(|(_, word)| word.to_lowercase() == "asks");
    let asked = places.map(|(i, _)| {
        let numbers = words[i + 1..].iter().map_while(|word| number(word));
        numbers.collect::<Vec<&str>>().join(", ")
    });
    let asked: Vec<String> = asked.filter(|numbers| !numbers.is_empty()).collect();
    assert_eq!(said, asked);
}

/// What a call asks by 4.4.
fn asked(call: &str) -> String {
    let rows = rows("4.4");
    let mut named = rows
        .iter()
        .filter(|row| row[0].split(", ").any(|name| name == call));
    named.next().expect(call)[2].clone()
}

/// The raw calls of the crate that have a row of their own in 4.4 or share one.
const RAW: [(&str, &str); 14] = [
    ("add", "Add"),
    ("remove", "Remove"),
    ("replace", "Replace"),
    ("mute", "Mute"),
    ("label", "Label"),
    ("spoiler", "Spoiler"),
    ("save", "Save"),
    ("load", "Load"),
    ("checklist_open", "Open"),
    ("checklist_sent", "File sent"),
    ("checklist_skipped", "File skipped"),
    ("checklist_withdraw", "Skip withdrawn"),
    ("checklist_missing", "Missing files"),
    ("checklist_complete", "Complete"),
];

#[test]
fn each_raw_call_of_the_crate_says_what_it_asks() {
    let docs = file("bindings/rust/src/raw.rs");
    for (name, call) in RAW {
        let (_, doc) = docs
            .split_once(&format!("/// `yeqontur_{name}`: "))
            .expect(name);
        let (_, numbers) = doc.split_once("Asks ").expect(name);
        let (numbers, _) = numbers.split_once(".\n").expect(name);
        assert_eq!(numbers, asked(call), "{name}");
    }
}

/// The book stands for sound tables, so 15 is left to the calls on files, which ask by it for a checklist.
#[test]
fn the_book_asks_what_the_calls_ask() {
    let steps = rows("5.2");
    assert_eq!(steps.len(), 8);
    let steps = steps
        .iter()
        .flat_map(|row| row[0].split(", ").map(|call| (call, &row[1])));
    for (call, book) in steps {
        let asked = asked(call);
        let on_files = asked.ends_with("20, 22");
        let expected = if on_files {
            &asked[..]
        } else {
            asked.trim_start_matches("15, ")
        };
        assert_eq!(book, expected, "{call}");
    }
}

#[test]
fn a_paragraph_that_is_named_is_there() {
    let paragraphs = paragraphs();
    let mut count = 0;
    for (path, text) in all_texts() {
        for number in named(&text) {
            assert!(paragraphs.contains(number), "{}: {number}", path.display());
            count += 1;
        }
    }
    assert!(count > 70, "{count}");
}

/// In the tables of terms the paragraphs stand in the first column.
#[test]
fn the_tables_of_terms_name_paragraphs_that_are_there() {
    let paragraphs = paragraphs();
    let text = file("docs/ARCHITECTURE.md");
    let (_, tables) = text
        .split_once("| specification | term |")
        .expect("a table");
    let cells = tables
        .lines()
        .filter_map(|line| line.strip_prefix("| ")?.split(" | ").next());
    let cells = cells.filter(|cell| cell.starts_with(|c: char| c.is_ascii_digit()));
    let cells: Vec<&str> = cells.collect();
    assert!(cells.len() > 60, "{}", cells.len());
    for number in cells
        .iter()
        .flat_map(|cell| cell.split(' '))
        .filter_map(number)
    {
        assert!(paragraphs.contains(number), "{number}");
    }
}

#[test]
fn the_specification_names_its_own_paragraphs() {
    let paragraphs = paragraphs();
    for word in words(&specification()) {
        let Some(number) = number(word) else { continue };
        if number.contains('.') {
            assert!(paragraphs.contains(number), "{word}");
        }
    }
}

#[test]
fn paragraphs_are_numbered_without_a_gap() {
    let paragraphs = paragraphs();
    for section in 1..=10 {
        let own = paragraphs.iter().filter_map(|number| {
            let (first, second) = number.split_once('.')?;
            (first == section.to_string()).then(|| second.parse().expect("a number"))
        });
        let mut own: Vec<usize> = own.collect();
        own.sort();
        assert!(paragraphs.contains(&section.to_string()));
        assert_eq!(own, Vec::from_iter(1..=own.len()), "section {section}");
    }
}

#[test]
fn no_file_names_a_document_that_is_not_here() {
    for (path, text) in all_texts() {
        let text = words(&text.to_lowercase()).join(" ");
        for name in ["document 0", "document (0", "source document"] {
            let found = text.contains(name) && !path.ends_with(file!());
            assert!(!found, "{}: {name}", path.display());
        }
    }
}

#[test]
fn the_sheet_is_the_example_and_prints_what_stands_beside_it() {
    let (mut sheet, mut printed) = (String::new(), String::new());
    for (i, row) in rows("6.10").iter().enumerate() {
        assert_eq!(row[0], (i + 1).to_string());
        assert!(row[1] == "blank" || quoted(&row[1]).len() == 1);
        assert!(row[2] == "nothing" || !quoted(&row[2]).is_empty());
        sheet += &(quoted(&row[1]).concat() + "\n");
        for line in quoted(&row[2]) {
            printed += &(line + "\n");
        }
    }
    assert_eq!(sheet, file("examples/specification.sheet"));
    assert_eq!(printed, file("examples/specification.out"));
}
