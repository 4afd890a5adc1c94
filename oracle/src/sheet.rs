//! The sheet program: bytes in, bytes out.
//!
//! It keeps the plain book and labels its pages by the definitions. Question 15 is not asked:
//! the book starts from the empty table and each line leaves a sound one.

use crate::book::Book;
use crate::calls::{Answer, Call};
use crate::command::{read_line, Command, Line};
use crate::labels::{Label, Labelled};
use crate::limits::{ATOMS, INPUT_BYTES};
use crate::relations::reason;
use crate::rules::Program;

/// A sheet under way: the book, and what has been printed.
struct Sheet {
    book: Book,
    /// The labels of the book's pages, once asked for since the last change.
    labelled: Option<Labelled>,
    printed: String,
}

/// The whole of what the sheet program prints for this input.
pub fn run(input: &[u8]) -> Vec<u8> {
    Sheet::after(input).printed.into_bytes()
}

/// The rules that a sheet leaves in its table, which was empty at the start.
pub fn left(input: &[u8]) -> Program {
    Sheet::after(input).book.pages().clone()
}

/// The lines without their newlines. What follows the last newline is a line only if it has
/// bytes. Bytes past the cut are not there.
pub(crate) fn lines(input: &[u8]) -> Vec<&[u8]> {
    let read = &input[..input.len().min(INPUT_BYTES)];
    let mut lines: Vec<&[u8]> = read.split(|&byte| byte == b'\n').collect();
    if lines.last().is_some_and(|last| last.is_empty()) {
        lines.pop();
    }
    lines
}

/// A label as a line of `L` shows it.
pub fn shown(atom: u32, label: Label) -> String {
    match label {
        Label::Absent => format!("{atom} absent"),
        Label::Out => format!("{atom} out"),
        Label::In { depth, slot } => format!("{atom} in {depth} {slot}"),
    }
}

/// What `L` prints: a line for each atom that occurs, ascending.
pub fn listing(labelled: &Labelled) -> String {
    let occurring = labelled.occurring();
    occurring
        .map(|(atom, label)| shown(atom, label) + "\n")
        .collect()
}

impl Sheet {
    /// The sheet when all lines of the input have been obeyed or refused.
    fn after(input: &[u8]) -> Sheet {
        let mut sheet = Sheet {
            book: Book::empty(),
            labelled: None,
            printed: String::new(),
        };
        for (line, number) in lines(input).into_iter().zip(1..) {
            if let Err(refusal) = sheet.obey(read_line(line)) {
                sheet.print(&format!("line {number} refused {refusal}"));
            }
        }
        sheet
    }

    fn print(&mut self, line: &str) {
        self.printed.push_str(line);
        self.printed.push('\n');
    }

    /// Does what the line says, or gives the number of its refusal.
    fn obey(&mut self, line: Line) -> Result<(), u32> {
        match line {
            Line::Blank => Ok(()),
            Line::LineTooLong => Err(14),
            Line::NotACommand => Err(13),
            Line::Command(Command::Change(call)) => self.change(&call),
            Line::Command(Command::Why { atom }) => self.why(atom),
            Line::Command(Command::Labels) => {
                self.print_labels();
                Ok(())
            }
        }
    }

    fn change(&mut self, call: &Call) -> Result<(), u32> {
        let answer = self.book.make(call).expect("the book has changes")?;
        self.labelled = None;
        match (answer, call) {
            (Answer::Slot(slot), _) => self.print(&format!("slot {slot}")),
            (_, Call::Remove { slot }) => self.print(&format!("removed {slot}")),
            (_, Call::Replace { slot, .. }) => self.print(&format!("replaced {slot}")),
            _ => unreachable!("a sheet has no other change: {call:?}"),
        }
        Ok(())
    }

    fn labelled(&mut self) -> &Labelled {
        let Sheet { book, labelled, .. } = self;
        labelled.get_or_insert_with(|| Labelled::of(book.pages().clone()))
    }

    fn why(&mut self, atom: u32) -> Result<(), u32> {
        if atom as usize >= ATOMS {
            return Err(10);
        }
        let slots = reason(self.labelled(), atom).ok_or(12u32)?;
        let fields: String = slots.iter().map(|slot| format!(" {slot}")).collect();
        self.print(&format!("why{fields}"));
        Ok(())
    }

    fn print_labels(&mut self) {
        let lines = listing(self.labelled());
        self.printed.push_str(&lines);
    }
}
