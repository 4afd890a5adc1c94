//! The tree that `why --json` prints is the tree of the table, and is as the guide's schema says.

mod common;

use common::json::Json;
use common::program::{printed, root, run, run_on, why};
use common::schema::Schema;
use common::{folder, Random};
use std::fs;
use yeqontur::{Because, Label, Rule, Side, Stop, Stopped, Table, Why};

/// The schema stands in the last block of its kind in the guide.
fn schema() -> Schema {
    let guide = fs::read_to_string(root().join("docs/GUIDE.md")).expect("the guide");
    let (_, block) = guide.rsplit_once("\n```json\n").expect("a block");
    Schema::read(&block[..block.find("```").expect("its end")])
}

fn read(text: &str) -> Json {
    Json::read(text).unwrap_or_else(|told| panic!("{told}\n{text}"))
}

fn number(value: &Json, name: &str) -> u32 {
    let number = value.get(name).and_then(Json::number);
    number.expect(name).try_into().expect(name)
}

fn word<'a>(value: &'a Json, name: &str) -> &'a str {
    value.get(name).and_then(Json::text).expect(name)
}

fn items<'a>(value: &'a Json, name: &str) -> &'a [Json] {
    value.get(name).expect(name).items()
}

fn label(value: &Json) -> Label {
    let label = value.get("label").expect("a label");
    match word(label, "state") {
        "absent" => Label::Absent,
        "out" => Label::Out,
        _ => Label::In {
            depth: number(label, "depth"),
            slot: number(label, "slot"),
        },
    }
}

/// How an entry stops a rule.
fn stops(side: Side) -> &'static str {
    match side {
        Side::Positive => "needs",
        Side::Negative => "blocked by",
    }
}

/// A rule in a line: its slot and its lists.
fn rule_line(slot: u32, positives: &[u32], negatives: &[u32]) -> String {
    format!("slot {slot}: {positives:?} not {negatives:?}")
}

fn rule_told(rule: &Rule) -> String {
    rule_line(rule.slot, &rule.positives, &rule.negatives)
}

fn stopped_told(stopped: &Stopped) -> String {
    let rule = rule_told(&stopped.rule);
    match &stopped.stop {
        Stop::Spoiled { side, place, .. } => format!("{rule} {} at {place}", stops(*side)),
        _ => format!("{rule} muted"),
    }
}

/// The branches of a node, and the node in a line, without them.
fn told(why: &Why) -> (Vec<&Why>, String) {
    let (branches, because) = match &why.because {
        Because::Supported { rule, from } => {
            let branches: Vec<&Why> = from.iter().collect();
            let because = format!("supported {} from {}", rule_told(rule), from.len());
            (branches, because)
        }
        Because::Stopped(rules) => {
            let by = |stopped| match stopped {
                &Stopped {
                    stop: Stop::Spoiled { ref by, .. },
                    ..
                } => Some(by),
                _ => None,
            };
            let rules_told: Vec<String> = rules.iter().map(stopped_told).collect();
            let because = format!("stopped {rules_told:?}");
            (rules.iter().filter_map(by).collect(), because)
        }
        other => (Vec::new(), format!("{other:?}").to_lowercase()),
    };
    (branches, format!("{} {}: {because}", why.atom, why.label))
}

/// The nodes of a tree in reading order, a line each.
fn lines(why: &Why) -> Vec<String> {
    let (mut waiting, mut lines) = (vec![why], Vec::new());
    while let Some(why) = waiting.pop() {
        let (branches, line) = told(why);
        waiting.extend(branches.into_iter().rev());
        lines.push(line);
    }
    lines
}

/// A document, and the table that it should be of.
struct Back<'a> {
    table: &'a Table,
    tree: &'a [Json],
}

impl Back<'_> {
    /// The atoms of a list of entries, whose labels are those of the table.
    fn atoms(&self, entries: &[Json]) -> Vec<u32> {
        let atom = |entry: &Json| {
            let atom = number(entry, "atom");
            assert_eq!(self.table.label(atom), Ok(label(entry)));
            atom
        };
        entries.iter().map(atom).collect()
    }

    fn rule(&self, value: &Json) -> String {
        let rule = value.get("rule").expect("a rule");
        let positives = self.atoms(items(rule, "positives"));
        let negatives = self.atoms(items(rule, "negatives"));
        rule_line(number(rule, "slot"), &positives, &negatives)
    }

    fn stopped(&self, value: &Json) -> String {
        let (rule, how) = (self.rule(value), word(value, "stop"));
        if how == "muted" {
            return format!("{rule} {how}");
        }
        format!("{rule} {how} at {}", number(value, "place"))
    }

    /// A cut node says where the node of its atom stands: before it, and told.
    fn cut(&self, node: &Json, place: usize) {
        let at = number(node, "at") as usize;
        assert!(at < place);
        assert_eq!(self.tree[at].get("atom"), node.get("atom"));
        let told = word(&self.tree[at], "because");
        assert!(told == "supported" || told == "stopped", "{told}");
    }

    /// A node of the document in a line, as that of a tree.
    fn line(&self, place: usize, node: &Json) -> String {
        let kind = word(node, "because");
        let because = match kind {
            "supported" => {
                let from = items(node, "from").len();
                format!("{kind} {} from {from}", self.rule(node))
            }
            "stopped" => {
                let rules = items(node, "rules").iter();
                let rules: Vec<String> = rules.map(|rule| self.stopped(rule)).collect();
                format!("{kind} {rules:?}")
            }
            _ => kind.to_string(),
        };
        if kind == "above" || kind == "earlier" {
            self.cut(node, place);
        }
        format!("{} {}: {because}", number(node, "atom"), label(node))
    }
}

/// The nodes of a document of this table, a line each. With the order that `in_reading_order` asks for they are a
/// tree, since a line says how many branches a node has.
fn back(document: &Json, table: &Table) -> Vec<String> {
    let tree = items(document, "tree");
    let back = Back { table, tree };
    let nodes = tree.iter().enumerate();
    nodes.map(|(place, node)| back.line(place, node)).collect()
}

/// The numbers of a node's branches, from the left.
fn branches(node: &Json) -> Vec<usize> {
    let listed = node.get("from").or(node.get("rules"));
    let listed = listed.map_or(&[][..], Json::items).iter();
    let numbers = listed.filter_map(|branch| branch.get("by").unwrap_or(branch).number());
    numbers.map(|number| number as usize).collect()
}

/// Depth first, left to right, the nodes come in the order of their numbers.
fn in_reading_order(document: &Json) -> bool {
    let tree = items(document, "tree");
    let (mut waiting, mut next) = (vec![0], 0);
    while let Some(number) = waiting.pop() {
        if number != next {
            return false;
        }
        next += 1;
        waiting.extend(branches(&tree[number]).into_iter().rev());
    }
    next == tree.len()
}

/// The rules of a table whose slots have no gap, as lines.
fn sheet(table: &Table) -> String {
    let words = |list: &[u32]| -> String { list.iter().map(|atom| format!(" {atom}")).collect() };
    let line = |rule: Rule| {
        let (positives, negatives) = (words(&rule.positives), words(&rule.negatives));
        format!("A {} :{positives} !{negatives}\n", rule.head)
    };
    table.rules().map(line).collect()
}

/// The document of a table's atom, which the program is given as a sheet and slots to be muted.
fn printed_of(table: &Table, atom: u32) -> String {
    let muted = table.rules().filter(|rule| rule.muted);
    let slots: Vec<String> = muted.map(|rule| rule.slot.to_string()).collect();
    let words = ["--json", "-", &atom.to_string(), "muted"].map(str::to_string);
    let mut program = why(words.iter().chain(&slots));
    let (status, printed, told) = run_on(&mut program, sheet(table).as_bytes());
    assert_eq!((status, told.as_str()), (Some(0), ""));
    printed
}

/// Holds the document of a table's atom to the schema and to the table's tree, and answers it.
fn held(schema: &Schema, table: &Table, atom: u32) -> Json {
    let document = read(&printed_of(table, atom));
    assert_eq!(schema.holds(&document), Ok(()));
    assert!(in_reading_order(&document));
    let why = table.why(atom).expect("an atom");
    assert_eq!(back(&document, table), lines(&why));
    document
}

/// The words by which the schema tells kinds apart.
const KINDS: [&str; 8] = [
    "supported",
    "stopped",
    "above",
    "earlier",
    "absent",
    "needs",
    "blocked by",
    "muted",
];

/// Each kind comes up often.
#[test]
fn trees_of_random_tables_are_as_the_schema_says_and_those_of_the_table() {
    let (schema, mut random) = (schema(), Random(1));
    let mut seen = String::new();
    for _ in 0..400 {
        let table = random.muted_table(60, 16, 8);
        let atom = random.below(17);
        seen += &format!("{:?}", held(&schema, &table, atom));
    }
    let often = KINDS.map(|kind| seen.matches(&format!("{kind:?}")).count());
    assert!(often.iter().all(|&times| times >= 20), "{often:?}");
}

/// The longest chains that a table holds: up to a fact, and up to an atom that nothing gives.
#[test]
fn the_deepest_trees_are_printed() {
    let (schema, mut table) = (schema(), Table::new());
    for atom in 1..256 {
        assert!(table.add(atom, &[atom - 1], &[]).is_ok());
    }
    let document = held(&schema, &table, 255);
    assert_eq!(items(&document, "tree").len(), 256);
    assert!(table.add(0, &[], &[]).is_ok());
    let document = held(&schema, &table, 255);
    assert_eq!(
        label(&items(&document, "tree")[0]),
        table.label(255).unwrap()
    );
    assert_eq!(items(&document, "tree").len(), 256);
}

#[test]
fn checklists_are_printed_with_their_names() {
    let schema = schema();
    for (marks, first) in [
        ("5 sent 1 2 3 skipped 4 sent 5", "out"),
        ("2 sent 1 2", "in"),
    ] {
        let words: Vec<&str> = ["--json", "checklist"]
            .into_iter()
            .chain(marks.split(' '))
            .collect();
        let document = read(&printed(&words));
        assert_eq!(schema.holds(&document), Ok(()));
        let root = &items(&document, "tree")[0];
        assert_eq!(word(root, "name"), "complete");
        assert_eq!(word(root.get("label").expect("a label"), "state"), first);
        assert!(items(&document, "tree")
            .iter()
            .all(|node| node.get("name").is_some()));
    }
}

#[test]
fn names_come_back_as_they_were_given() {
    let folder = folder("json_names");
    let (path, names) = (
        folder.join("names"),
        "1 a \"b\" \\ \u{1}\u{7f} \u{2028} ä 𝄞 </script>\n",
    );
    fs::write(&path, names).expect("a file");
    let mut program = why(["--json", "-", "2"]);
    let (_, printed, told) = run_on(program.arg(&path), b"A 1 :\nA 2 : 1");
    assert_eq!(told, "");
    let document = read(&printed);
    assert_eq!(schema().holds(&document), Ok(()));
    let nodes = items(&document, "tree");
    let entry = &items(nodes[0].get("rule").expect("a rule"), "positives")[0];
    assert_eq!(nodes[0].get("name"), None);
    for named in [&nodes[1], entry] {
        assert_eq!(word(named, "name"), names[2..].trim_end());
    }
}

/// Each is the right document of the guide with one thing changed.
#[test]
fn documents_that_are_not_as_the_schema_says_are_refused() {
    let schema = schema();
    let right = fs::read_to_string(root().join("examples/skipped.json")).expect("a document");
    assert_eq!(schema.holds(&read(&right)), Ok(()));
    for (part, instead) in [
        ("yeqontur-why-1", "yeqontur-why-2"),
        ("\"format\": \"yeqontur-why-1\", ", ""),
        ("\"because\": \"stopped\"", "\"because\": \"stoped\""),
        ("\"because\": \"supported\", ", ""),
        (", \"from\": []", ""),
        ("\"from\": []", "\"from\": [-1]"),
        ("\"from\": []", "\"from\": [], \"at\": 0"),
        (", \"by\": 1", ""),
        ("\"by\": 1", "\"by\": \"1\""),
        ("\"stop\": \"needs\"", "\"stop\": \"lacks\""),
        ("\"stop\": \"needs\"", "\"stop\": \"muted\""),
        ("\"place\": 1", "\"place\": 8"),
        ("{\"atom\": 7", "{\"atom\": 256"),
        ("{\"atom\": 7, ", "{"),
        ("{\"atom\": 7, ", "{\"atom\": 7, \"head\": 7, "),
        ("\"name\": \"complete\"", "\"name\": \"\""),
        ("\"name\": \"complete\"", "\"name\": 7"),
        ("\"depth\": 2, ", ""),
        ("\"depth\": 2", "\"depth\": 0"),
        ("{\"state\": \"out\"}", "{\"state\": \"absent\"}"),
        ("{\"state\": \"out\"}", "\"out\""),
        ("{\"state\": \"out\"}", "{\"state\": \"out\", \"depth\": 1}"),
        ("\"negatives\": []", "\"negatives\": {}"),
        ("\"negatives\": []", "\"negatives\": [7]"),
    ] {
        let wrong = right.replacen(part, instead, 1);
        assert_ne!(wrong, right, "{part}");
        assert!(schema.holds(&read(&wrong)).is_err(), "{part}: {instead}");
    }
    assert!(schema
        .holds(&read("{\"format\": \"yeqontur-why-1\", \"tree\": []}"))
        .is_err());
}

#[test]
fn what_is_no_json_is_not_read() {
    for text in [
        "",
        "{",
        "[1,]",
        "[1 2]",
        "{\"a\": 1, \"a\": 2}",
        "{\"a\" 1}",
        "{a: 1}",
        "01",
        "1.5",
        "-",
        "\"\n\"",
        "\"\\x\"",
        "\"\\ud800\"",
        "\"",
        "[] []",
        "nul",
    ] {
        assert!(Json::read(text).is_err(), "{text}");
    }
    let letters = Json::read(" [\"\\u00e4\\n\\\\\", -1, null, true, false, {}]\n").expect("a list");
    assert_eq!(letters.items()[0].text(), Some("ä\n\\"));
    assert_eq!(letters.items().len(), 6);
}

/// A tree is printed where the sheet has refused lines, and they are told.
#[test]
fn refused_lines_are_told_beside_the_tree() {
    let (status, printed, told) = run(&mut why(["--json", "examples/deposit.sheet", "7"]));
    assert_eq!(status, Some(0));
    assert!(told.starts_with("examples/deposit.sheet: line 10 refused 12: "));
    assert_eq!(schema().holds(&read(&printed)), Ok(()));
}
