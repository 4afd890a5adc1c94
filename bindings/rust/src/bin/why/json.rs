//! The tree as JSON: a list of nodes in reading order, each of which names its branches by their numbers in the list.
//! A tree may be 256 nodes deep, and many readers of JSON give up before that where one stands inside another.

use crate::sheet::Names;
use std::collections::BTreeMap;
use yeqontur::{Because, Label, Rule, Side, Stop, Stopped, Table, Why};

/// Another shape gets another name, so that a reader can tell.
const FORMAT: &str = "yeqontur-why-1";

/// A node, and the numbers of its branches.
struct Node<'a> {
    why: &'a Why,
    branches: Vec<usize>,
}

fn stopper(stopped: &Stopped) -> Option<&Why> {
    match &stopped.stop {
        Stop::Spoiled { by, .. } => Some(by),
        _ => None,
    }
}

fn branches(why: &Why) -> Vec<&Why> {
    match &why.because {
        Because::Supported { from, .. } => from.iter().collect(),
        Because::Stopped(rules) => rules.iter().filter_map(stopper).collect(),
        _ => Vec::new(),
    }
}

/// The nodes in reading order: depth first, left to right.
fn listed(why: &Why) -> Vec<Node<'_>> {
    let mut list: Vec<Node> = Vec::new();
    let mut waiting: Vec<(Option<usize>, &Why)> = vec![(None, why)];
    while let Some((above, why)) = waiting.pop() {
        let number = list.len();
        if let Some(above) = above {
            list[above].branches.push(number);
        }
        let below = branches(why).into_iter().rev();
        waiting.extend(below.map(|branch| (Some(number), branch)));
        list.push(Node {
            why,
            branches: Vec::new(),
        });
    }
    list
}

/// The number of each atom's first node. Where a node is cut, that is the one which is told.
fn firsts(list: &[Node]) -> BTreeMap<u32, usize> {
    let numbered = list.iter().enumerate().rev();
    numbered
        .map(|(number, node)| (node.why.atom, number))
        .collect()
}

/// A string of JSON: quotes, backslashes and control characters are escaped.
fn string(text: &str) -> String {
    let mut out = String::from("\"");
    for letter in text.chars() {
        match letter {
            '"' | '\\' => out.extend(['\\', letter]),
            '\0'..='\x1f' | '\x7f' => out += &format!("\\u{:04x}", u32::from(letter)),
            _ => out.push(letter),
        }
    }
    out + "\""
}

fn array(members: impl Iterator<Item = String>) -> String {
    let members: Vec<String> = members.collect();
    format!("[{}]", members.join(", "))
}

/// The same, with each member on a line of its own, so far to the right.
fn lines(members: impl Iterator<Item = String>, indent: &str) -> String {
    let members = members.map(|member| format!("\n{indent}{member}"));
    let members: Vec<String> = members.collect();
    format!("[{}]", members.join(","))
}

fn label(label: Label) -> String {
    match label {
        Label::Absent => r#"{"state": "absent"}"#.to_string(),
        Label::Out => r#"{"state": "out"}"#.to_string(),
        Label::In { depth, slot } => {
            format!(r#"{{"state": "in", "depth": {depth}, "slot": {slot}}}"#)
        }
    }
}

struct Writer<'a> {
    names: &'a Names,
    labels: BTreeMap<u32, Label>,
    firsts: BTreeMap<u32, usize>,
}

impl Writer<'_> {
    /// The members that every atom has.
    fn atom(&self, atom: u32, told: Label) -> String {
        let name = self.names.get(&atom).map(|name| string(name));
        let name = name.map_or(String::new(), |name| format!(r#", "name": {name}"#));
        format!(r#""atom": {atom}{name}, "label": {}"#, label(told))
    }

    fn entries(&self, rule: &Rule, side: Side) -> String {
        array(rule.list(side).iter().map(|atom| {
            let label = self.labels.get(atom).copied();
            format!("{{{}}}", self.atom(*atom, label.unwrap_or(Label::Absent)))
        }))
    }

    fn rule(&self, rule: &Rule) -> String {
        let positives = self.entries(rule, Side::Positive);
        let negatives = self.entries(rule, Side::Negative);
        let slot = rule.slot;
        format!(r#"{{"slot": {slot}, "positives": {positives}, "negatives": {negatives}}}"#)
    }

    /// A rule of an out atom. Those that an entry stops take the next branch each.
    fn stopped(&self, stopped: &Stopped, branches: &mut impl Iterator<Item = usize>) -> String {
        let stop = match &stopped.stop {
            Stop::Muted => r#""stop": "muted""#.to_string(),
            Stop::Spoiled { side, place, .. } => {
                let how = match side {
                    Side::Positive => "needs",
                    Side::Negative => "blocked by",
                };
                let by = branches.next().unwrap_or_default();
                format!(r#""stop": "{how}", "place": {place}, "by": {by}"#)
            }
            other => panic!("not written yet: {other}"),
        };
        format!(r#"{{"rule": {}, {stop}}}"#, self.rule(&stopped.rule))
    }

    fn cut(&self, word: &str, atom: u32) -> String {
        let at = self.firsts.get(&atom).copied().unwrap_or_default();
        format!(r#""because": "{word}", "at": {at}"#)
    }

    fn node(&self, Node { why, branches }: &Node) -> String {
        let because = match &why.because {
            Because::Absent => r#""because": "absent""#.to_string(),
            Because::Supported { rule, .. } => {
                let from = array(branches.iter().map(usize::to_string));
                let rule = self.rule(rule);
                format!(r#""because": "supported", "rule": {rule}, "from": {from}"#)
            }
            Because::Stopped(rules) => {
                let mut branches = branches.iter().copied();
                let rules = rules.iter().map(|rule| self.stopped(rule, &mut branches));
                let rules = lines(rules, "    ");
                format!(r#""because": "stopped", "rules": {rules}"#)
            }
            Because::Above => self.cut("above", why.atom),
            Because::Earlier => self.cut("earlier", why.atom),
            other => panic!("not written yet: {other:?}"),
        };
        format!("{{{}, {because}}}", self.atom(why.atom, why.label))
    }
}

/// The document: a node to a line, and the rules of an out atom below it, each on a line of its own.
pub fn written(why: &Why, table: &Table, names: &Names) -> String {
    let list = listed(why);
    let writer = Writer {
        names,
        labels: table.labels().collect(),
        firsts: firsts(&list),
    };
    let tree = lines(list.iter().map(|node| writer.node(node)), "  ");
    format!("{{\"format\": \"{FORMAT}\", \"tree\": {tree}}}\n")
}
