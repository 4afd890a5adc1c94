//! Draws why an atom has its label, as an SVG, or prints the tree as JSON.
//!
//!     why [--json] [-o PATH] checklist FILES [sent NUMBER..] [skipped NUMBER..] [good NUMBER]
//!     why [--json] [-o PATH] SHEET ATOM [NAMES] [muted SLOT..]
//!
//! Of a checklist it draws why it is complete or is not, or why one of its files is good or is not. A sheet is read as
//! the sheet program reads it: the lines that it refuses are told on standard error, and leave the table as it was.
//! Then the rules in the slots behind `muted` are muted. NAMES has a line `atom name` for each atom that has a name. All
//! goes to standard output, or over the file at PATH once it is made; where anything fails, that file stays as it was.

mod arguments;
mod bands;
mod cards;
mod files;
mod fold;
mod json;
mod layout;
mod marks;
mod measure;
#[cfg(test)]
mod picture_tests;
#[cfg(test)]
mod read_tests;
mod sheet;
mod shown;
mod svg;
#[cfg(test)]
mod text_tests;
mod wrap;

use arguments::{usage, Asked, Subject, HELP};
use cards::Drawing;
use files::Failure;
use sheet::Names;
use std::path::Path;
use std::process::ExitCode;
use yeqontur::{Table, Why};

fn drawn(why: &Why, table: &Table, names: &Names) -> String {
    let drawing = Drawing::new(why, table, names);
    svg::written(&layout::Picture::of(&drawing))
}

/// A tree, with what is needed to show it.
struct Shown {
    why: Why,
    table: Table,
    names: Names,
}

impl Shown {
    fn written(&self, json: bool) -> String {
        let write = if json { json::written } else { drawn };
        write(&self.why, &self.table, &self.names)
    }
}

/// The tree of an atom where the rules in these slots are muted, or a sentence that says what is wrong.
fn of_table(table: Table, atom: &str, names: Names, muted: &[String]) -> Result<Shown, String> {
    let table = sheet::muted(table, muted)?;
    let number = sheet::number(atom.as_bytes());
    let number =
        number.ok_or_else(|| format!("not an atom: {atom}; an atom is a number below 256"))?;
    let why = table.why(number);
    let why = why.map_err(|refusal| format!("atom {atom} {refusal}"))?;
    Ok(Shown { why, table, names })
}

fn of_checklist(marks: &[String]) -> Result<Shown, String> {
    let (checklist, atom) = marks::asked(marks)?;
    let why = checklist.table().why(atom);
    Ok(Shown {
        why: why.map_err(|refusal| refusal.to_string())?,
        names: marks::names(&checklist),
        table: checklist.into_table(),
    })
}

/// The table that a sheet leaves. Its refused lines are told at once, whatever becomes of the picture.
fn table_of(sheet: &Path) -> Result<Table, String> {
    let (table, refused) = sheet::read(&files::sheet(sheet)?);
    let name = files::name(sheet);
    files::tell(refused.iter().map(|refused| format!("{name}: {refused}")));
    Ok(table)
}

fn names_of(path: Option<&Path>) -> Result<Names, String> {
    let Some(path) = path else {
        return Ok(Names::new());
    };
    let names = sheet::names(files::names(path)?);
    names.map_err(|sentence| format!("{}: {sentence}", path.display()))
}

fn of(subject: &Subject) -> Result<Shown, String> {
    match subject {
        Subject::Checklist(marks) => of_checklist(marks),
        Subject::Sheet {
            sheet,
            atom,
            names,
            muted,
        } => {
            let table = table_of(sheet)?;
            of_table(table, atom, names_of(names.as_deref())?, muted)
        }
    }
}

fn obey(asked: &Asked) -> Result<(), Failure> {
    match asked {
        Asked::Help => files::write(&format!("{}\n{HELP}", usage()), None),
        Asked::Tree {
            subject,
            json,
            output,
        } => {
            let made = of(subject)?.written(*json);
            files::write(&made, output.as_deref())
        }
    }
}

/// The exit status says whether what was asked for was made and written. Refused lines of a sheet do not count: the
/// sheet program goes on after them as well.
fn main() -> ExitCode {
    let asked = arguments::read(std::env::args_os().skip(1));
    let done = asked.map_err(Failure::Told).and_then(|asked| obey(&asked));
    match done {
        Ok(()) => return ExitCode::SUCCESS,
        Err(Failure::Told(sentence)) => files::tell([sentence].into_iter()),
        Err(Failure::Quiet) => {}
    }
    ExitCode::FAILURE
}
