//! The public items of the crate, as its sources have them: each says what it is and shows it in an example, which runs
//! as a doc test; each call that can be refused says by what; what may still grow is marked so; and no answer is
//! dropped without a warning.

use std::collections::{BTreeMap, BTreeSet};
use std::fs;
use std::path::{Path, PathBuf};
use yeqontur::Refusal;

/// The sources of the crate by name, without the programs in src/bin.
fn sources() -> BTreeMap<String, String> {
    let folder = Path::new(env!("CARGO_MANIFEST_DIR")).join("src");
    let entries = fs::read_dir(folder).expect("the sources");
    let paths = entries.map(|entry| entry.expect("a source").path());
    let files = paths.filter(|path| path.extension().is_some_and(|end| end == "rs"));
    let read = |path: PathBuf| {
        let name = path.file_name().expect("a name").to_string_lossy();
        let text = fs::read_to_string(&path).expect("a source");
        (name.into_owned(), text)
    };
    files.map(read).collect()
}

#[derive(Clone, Copy, PartialEq, Eq, Debug)]
enum Kind {
    Function,
    /// A struct or an enum.
    Type,
    /// A constant, or whatever else has a name.
    Other,
    Field,
    /// A trait for a type.
    Implementation,
}

#[derive(Debug)]
struct Item {
    kind: Kind,
    /// With its file and line.
    name: String,
    /// From its first word to its body.
    head: String,
    docs: String,
    attributes: String,
}

/// What begins on a line, and its name; none if a program does not see it, or it says nothing itself.
fn begun(line: &str) -> Option<(Kind, &str)> {
    let words: Vec<&str> = line.split_whitespace().collect();
    let (kind, behind) = match words[..] {
        ["pub", "use" | "mod", ..] => return None,
        ["pub", "fn", name, ..] => (Kind::Function, name),
        ["pub", "const" | "unsafe", "fn", name, ..] => (Kind::Function, name),
        ["pub", "struct" | "enum", name, ..] => (Kind::Type, name),
        ["pub", name, ..] if name.ends_with(':') => (Kind::Field, name),
        ["pub", _, name, ..] => (Kind::Other, name),
        ["impl", _, "for", ..] => return Some((Kind::Implementation, line.trim_end_matches(" {"))),
        _ => return None,
    };
    let end = behind.find(|c: char| !c.is_alphanumeric() && c != '_');
    Some((kind, &behind[..end.unwrap_or(behind.len())]))
}

/// The public items of a source, each with the docs and the attributes above it.
fn items_of(file: &str, text: &str) -> Vec<Item> {
    let lines: Vec<&str> = text.lines().map(str::trim).collect();
    let (mut items, mut docs, mut attributes) = (Vec::new(), String::new(), String::new());
    for (i, line) in lines.iter().enumerate() {
        if let Some(doc) = line.strip_prefix("///") {
            docs.extend([doc.strip_prefix(' ').unwrap_or(doc), "\n"]);
        } else if line.starts_with("#[") {
            attributes.push_str(line);
        } else if !line.starts_with("//") {
            if let Some((kind, name)) = begun(line) {
                let rest = lines[i..].join(" ");
                items.push(Item {
                    kind,
                    name: format!("{file}:{}: {name}", i + 1),
                    head: rest.split('{').next().unwrap_or_default().to_string(),
                    docs: std::mem::take(&mut docs),
                    attributes: std::mem::take(&mut attributes),
                });
            }
            docs.clear();
            attributes.clear();
        }
    }
    items
}

/// All of them; more than a few, so that what is said below of each says something.
fn items() -> Vec<Item> {
    let sources = sources();
    let items = sources.iter().flat_map(|(file, text)| items_of(file, text));
    let items: Vec<Item> = items.collect();
    let count = |kind| items.iter().filter(|item| item.kind == kind).count();
    assert!(count(Kind::Function) > 50, "{}", count(Kind::Function));
    assert!(count(Kind::Type) > 20, "{}", count(Kind::Type));
    assert!(count(Kind::Other) > 6, "{}", count(Kind::Other));
    assert!(count(Kind::Field) > 30, "{}", count(Kind::Field));
    assert!(count(Kind::Implementation) > 10);
    items
}

/// The code of the doc tests in some docs, behind what says how they run.
fn examples(docs: &str) -> Vec<&str> {
    docs.split("```").skip(1).step_by(2).collect()
}

/// It is Rust, runs, and holds something.
fn is_good(example: &str) -> bool {
    example.starts_with('\n') && example.contains("assert")
}

#[test]
fn each_says_what_it_is() {
    for item in items() {
        assert!(!item.docs.trim().is_empty(), "{}", item.name);
    }
}

/// Each but the fields: their structs show them.
#[test]
fn each_is_shown_in_an_example() {
    for item in items().iter().filter(|item| item.kind != Kind::Field) {
        let examples = examples(&item.docs);
        assert!(!examples.is_empty(), "{}", item.name);
        assert!(examples.into_iter().all(is_good), "{}", item.name);
    }
}

#[test]
fn each_module_says_what_it_is_and_the_public_ones_show_it() {
    for (file, text) in sources() {
        let docs = text.lines().take_while(|line| line.starts_with("//!"));
        let docs: String = docs.map(|line| line[3..].to_string() + "\n").collect();
        assert!(!docs.is_empty(), "{file}");
        let is_public = file == "lib.rs" || file == "raw.rs";
        assert_eq!(!examples(&docs).is_empty(), is_public, "{file}");
        assert!(examples(&docs).into_iter().all(is_good), "{file}");
    }
}

/// The name of a refusal's case.
fn case(refusal: Refusal) -> String {
    let name = format!("{refusal:?}");
    name.split(' ').next().unwrap_or_default().to_string()
}

#[test]
fn each_refusal_says_its_number_and_when_it_comes() {
    let source = &sources()["refusal.rs"];
    let (_, cases) = source.split_once("pub enum Refusal {").expect("cases");
    for &refusal in Refusal::ALL {
        let name = case(refusal);
        let lines = cases.lines().map(str::trim).collect::<Vec<_>>();
        let at = lines
            .iter()
            .position(|line| line.trim_end_matches([',', '{', ' ']) == name);
        let above = lines[..at.expect(&name)].iter().rev();
        let docs: Vec<_> = above.take_while(|line| line.starts_with("///")).collect();
        let first = docs.last().expect(&name);
        assert!(
            first.starts_with(&format!("/// {}: ", refusal.number())),
            "{first}"
        );
    }
}

/// The refusals that the docs of an item name, in their order, each with its right number.
fn refusals(docs: &str) -> Vec<u32> {
    let (_, errors) = docs.split_once("# Errors\n").expect("errors");
    let named = errors.split("[`Refusal::").skip(1).map(|rest| {
        let (name, rest) = rest.split_once("`] (").expect(rest);
        let (number, _) = rest.split_once(')').expect(rest);
        (name, number.parse().expect(number))
    });
    let known = |name: &str, number: u32| {
        let mut all = Refusal::ALL.iter();
        all.any(|&refusal| refusal.number() == number && case(refusal) == name)
    };
    named
        .inspect(|&(name, number)| assert!(known(name, number), "{name} ({number})"))
        .map(|(_, number)| number)
        .collect()
}

/// By which refusals, the guide's table says: a `Table` is sound (15), and a `Vec` has room (11).
#[test]
fn each_call_that_can_be_refused_says_so() {
    let guide = Path::new(env!("CARGO_MANIFEST_DIR")).join("../../docs/GUIDE.md");
    let guide = fs::read_to_string(guide).expect("the guide");
    let (_, table) = guide.split_once("\n| call | refusals |").expect("a table");
    let met = |call: &str| -> Vec<u32> {
        let (_, row) = table.split_once(&format!("\n| {call} | ")).expect(call);
        let (numbers, _) = row.split_once(" |\n").expect(call);
        let numbers = numbers
            .split(", ")
            .map(|number| number.parse().expect(call));
        numbers
            .filter(|number| ![11, 15].contains(number))
            .collect()
    };
    let all = items();
    let calls = all.iter().filter(|item| item.kind == Kind::Function);
    for item in calls.filter(|item| item.head.contains("Result<")) {
        let expected = match item.name.rsplit(' ').next().expect("a name") {
            "save_to" | "load_from" | "replace_file" => vec![], // the system's errors, and what `load` meets
            "list_into" => vec![10, 12, 11],
            "state" | "atoms" => vec![20],
            "mute" | "unmute" => met("mute, unmute"),
            "why" => met("label"),
            "justifications" | "consequences" | "repercussions" => {
                met("justifications, consequences, repercussions")
            }
            "open" => met("open a checklist"),
            "sent" | "skipped" | "withdraw" => met("file sent, file skipped, skip withdrawn"),
            call => met(call),
        };
        assert_eq!(refusals(&item.docs), expected, "{}", item.name);
    }
}

/// A result warns by itself, and so does an iterator.
#[test]
fn no_answer_is_dropped_without_a_warning() {
    let all = items();
    let warns = |item: &&Item| item.attributes.contains("#[must_use");
    let name = |item: &Item| item.name.rsplit(' ').next().unwrap_or_default().to_string();
    let types = all.iter().filter(|item| item.kind == Kind::Type);
    let types: BTreeSet<String> = types.filter(warns).map(name).collect();
    assert_eq!(types.len(), 7, "the answers in raw: {types:?}");
    for item in all.iter().filter(|item| item.kind == Kind::Function) {
        let (_, answer) = item.head.split_once("-> ").expect("an answer");
        let answer = answer.trim();
        let by_itself = ["Result<", "io::Result<", "impl Iterator<"];
        let by_itself = by_itself.iter().any(|start| answer.starts_with(start));
        assert!(
            by_itself || types.contains(answer) || warns(&item),
            "{}",
            item.name
        );
    }
}

/// What is not in this list is complete by the specification, or has the fields of the header.
#[test]
fn what_may_grow_is_marked() {
    let all = items();
    let marked = all
        .iter()
        .filter(|item| item.attributes.contains("#[non_exhaustive]"));
    let marked: BTreeSet<&str> = marked
        .filter_map(|item| item.name.rsplit(' ').next())
        .collect();
    let expected = [
        "Atoms",
        "Because",
        "List",
        "LoadError",
        "Refusal",
        "Rule",
        "Stop",
        "Stopped",
        "Validity",
        "Why",
    ];
    assert_eq!(marked, expected.into());
}
