//! A table that survives a restart: each start sends one more file, and the next one knows.

use std::error::Error;
use std::io::ErrorKind;
use std::path::{Path, PathBuf};
use std::process::ExitCode;
use std::{env, fs, io};
use yeqontur::{LoadError, Refusal, Table};

/// The files to be sent. Atoms are numbers that the program hands out: one for the folder, three for each file. They
/// are what the file on disk knows, so they must mean the same at every start.
const FILES: [&str; 2] = ["report.pdf", "notes.txt"];
const COMPLETE: u32 = 0;

fn sent(file: usize) -> u32 {
    1 + 3 * file as u32
}

fn skipped(file: usize) -> u32 {
    2 + 3 * file as u32
}

fn good(file: usize) -> u32 {
    3 + 3 * file as u32
}

/// A new table: a file is good if it was sent and not skipped; the folder is complete if every file is good.
fn begun() -> Result<Table, Refusal> {
    let mut table = Table::new();
    for i in 0..FILES.len() {
        table.add(good(i), &[sent(i)], &[skipped(i)])?;
    }
    let every: Vec<u32> = (0..FILES.len()).map(good).collect();
    table.add(COMPLETE, &every, &[])?;
    Ok(table)
}

/// The table that an earlier start saved, or a new one. A file that cannot be read may be whole, so that is an error
/// to tell, and nothing is saved over it.
fn opened(path: &Path) -> Result<Table, Box<dyn Error>> {
    match Table::load_from(path) {
        Ok(table) => {
            println!("loaded: {} rules", table.rules().count());
            Ok(table)
        }
        Err(LoadError::Io(error)) if error.kind() == ErrorKind::NotFound => {
            println!("nothing saved yet: a new table");
            Ok(begun()?)
        }
        Err(LoadError::Refused(refusal)) => {
            println!("refused {}: {}", refusal.number(), refusal.words());
            println!("kept as {}: a new table", kept_aside(path)?.display());
            Ok(begun()?)
        }
        Err(error) => Err(error.into()),
    }
}

/// Moves a refused file to a name of its own, for whoever can tell what became of it. Where the path is a link, it is
/// the link that moves.
fn kept_aside(path: &Path) -> io::Result<PathBuf> {
    let mut number = 1;
    loop {
        let mut name = path.as_os_str().to_owned();
        name.push(format!(".refused{number}"));
        let aside = PathBuf::from(name);
        if !aside.is_symlink() && !aside.try_exists()? {
            fs::rename(path, &aside)?;
            return Ok(aside);
        }
        number += 1;
    }
}

/// Sends the first file that was not sent yet. It is told after the table is saved: what a person has read is not
/// forgotten.
fn send_one(table: &mut Table, path: &Path) -> Result<(), Box<dyn Error>> {
    for (i, name) in FILES.iter().enumerate() {
        if !table.label(sent(i))?.is_in() {
            table.add(sent(i), &[], &[])?;
            table.save_to(path)?;
            println!("{name} is sent");
            return Ok(());
        }
    }
    println!("every file was sent");
    Ok(())
}

/// One start of the program.
fn start(path: &Path) -> Result<(), Box<dyn Error>> {
    let mut table = opened(path)?;
    send_one(&mut table, path)?;
    let complete = table.label(COMPLETE)?.is_in();
    println!("complete: {}", if complete { "in" } else { "out" });
    Ok(())
}

fn main() -> ExitCode {
    let Some(path) = env::args_os().nth(1).map(PathBuf::from) else {
        eprintln!("usage: restart PATH");
        return ExitCode::FAILURE;
    };
    if let Err(error) = start(&path) {
        eprintln!("{}: {error}", path.display());
        return ExitCode::FAILURE;
    }
    ExitCode::SUCCESS
}
