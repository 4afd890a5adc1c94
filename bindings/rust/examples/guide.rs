//! Rules from a scan, their labels, why a label stands, a refusal, a rule that is replaced, and one that is muted.

use yeqontur::{Because, Label, Refusal, Stop, Stopped, Table, Why};

/// What a scan of the folder found.
struct File {
    name: &'static str,
    sent: bool,
    skipped: bool,
}

const FILES: [File; 2] = [
    File {
        name: "report.pdf",
        sent: true,
        skipped: false,
    },
    File {
        name: "notes.txt",
        sent: true,
        skipped: true,
    },
];

/// Atoms are numbers from 0 to 255, handed out by the program: one for the folder, three for each file.
const COMPLETE: u32 = 0;

fn sent(file: usize) -> u32 {
    1 + 3 * file as u32
}

fn skipped(file: usize) -> u32 {
    2 + 3 * file as u32
}

fn good(file: usize) -> u32 {
    3 + 3 * file as u32
}

fn name(atom: u32) -> String {
    if atom == COMPLETE {
        return "complete".to_string();
    }
    let place = atom as usize - 1;
    let mark = ["sent", "skipped", "good"][place % 3];
    format!("{} {mark}", FILES[place / 3].name)
}

fn state(label: Label) -> &'static str {
    match label {
        Label::Absent => "absent",
        Label::Out => "out",
        Label::In { .. } => "in",
    }
}

/// A file is good if it was sent and not skipped; the folder is complete if every file is good. What the scan found is
/// added as facts.
fn scanned(files: &[File]) -> Result<Table, Refusal> {
    let mut table = Table::new();
    for (i, file) in files.iter().enumerate() {
        table.add(good(i), &[sent(i)], &[skipped(i)])?;
        if file.sent {
            table.add(sent(i), &[], &[])?;
        }
        if file.skipped {
            table.add(skipped(i), &[], &[])?;
        }
    }
    let every: Vec<u32> = (0..files.len()).map(good).collect();
    table.add(COMPLETE, &every, &[])?;
    Ok(table)
}

/// Prints the tree that says why an atom has its label.
fn show(why: &Why, indent: usize) {
    println!("{:indent$}{} is {}", "", name(why.atom), state(why.label));
    match &why.because {
        Because::Supported { from, .. } => from.iter().for_each(|w| show(w, indent + 2)),
        Because::Stopped(rules) => rules.iter().for_each(|rule| show_stopped(rule, indent + 2)),
        // No rule has the atom, or its branches are shown elsewhere in the tree.
        _ => {}
    }
}

/// Prints what stops a rule of an atom that is out.
fn show_stopped(stopped: &Stopped, indent: usize) {
    let slot = stopped.rule.slot;
    match &stopped.stop {
        Stop::Spoiled { side, by, .. } => {
            println!("{:indent$}slot {slot} {side} {}", "", name(by.atom));
            show(by, indent + 2);
        }
        // That it is muted: no entry is to blame.
        stop => println!("{:indent$}slot {slot} {stop}", ""),
    }
}

/// Says so if a call was refused.
fn tell<T>(told: Result<T, Refusal>) {
    if let Err(refusal) = told {
        println!("refused {}: {}", refusal.number(), refusal.words());
    }
}

/// Two changes to the rule of notes.txt. The first is refused, and the old rule still stands.
fn edit(table: &mut Table) -> Result<(), Refusal> {
    let slot = table.justifications(good(1))?[0]; // it has one rule
    println!("notes.txt is to be good unless the folder is complete");
    tell(table.replace(slot, good(1), &[], &[COMPLETE]));
    show(&table.why(good(1))?, 0);

    println!("notes.txt is to be good if report.pdf is");
    tell(table.replace(slot, good(1), &[good(0)], &[]));
    show(&table.why(good(1))?, 0);
    Ok(())
}

/// An afternoon without the rule of notes.txt: it keeps its slot, and unmuted it gives what it gave.
fn try_without(table: &mut Table) -> Result<(), Refusal> {
    let slot = table.justifications(good(1))?[0]; // it has one rule
    println!("the rule of notes.txt is muted for an afternoon");
    table.mute(slot)?;
    show(&table.why(COMPLETE)?, 0);

    println!("and unmuted");
    table.unmute(slot)?;
    show(&table.why(COMPLETE)?, 0);
    Ok(())
}

fn main() -> Result<(), Refusal> {
    let mut table = scanned(&FILES)?;
    for (atom, label) in table.labels() {
        println!("{}: {}", name(atom), state(label));
    }
    show(&table.why(COMPLETE)?, 0);

    println!("the skip of notes.txt is withdrawn");
    for slot in table.justifications(skipped(1))? {
        table.remove(slot)?;
    }
    show(&table.why(COMPLETE)?, 0);

    println!("a file that is skipped unless it is good");
    tell(table.add(skipped(0), &[], &[good(0)]));
    edit(&mut table)?;
    try_without(&mut table)
}
