//! What the program reads and writes. Nothing here panics: whatever a stream does is told in a line, or ends the
//! program without a word where nobody reads on.

use crate::sheet::MOST;
use std::fs::File;
use std::io::{self, ErrorKind, Read, Write};
use std::path::Path;
use yeqontur::replace_file;

/// How a program ends that did not do what was asked.
#[derive(PartialEq, Eq, Debug)]
pub enum Failure {
    Told(String),
    /// Nobody reads the output: there is nothing to tell, as with other filters.
    Quiet,
}

impl From<String> for Failure {
    fn from(sentence: String) -> Failure {
        Failure::Told(sentence)
    }
}

/// The words of the proved programs.
const UNWRITTEN: &str = "yeqontur: the output cannot be written";

/// At most so many bytes of a stream.
fn some(from: impl Read, most: usize) -> io::Result<Vec<u8>> {
    let mut bytes = Vec::new();
    from.take(most as u64).read_to_end(&mut bytes)?;
    Ok(bytes)
}

fn is_input(path: &Path) -> bool {
    path == Path::new("-")
}

/// What a sheet is called where its lines are told.
pub fn name(sheet: &Path) -> String {
    if is_input(sheet) {
        return "standard input".to_string();
    }
    sheet.display().to_string()
}

/// The bytes of a sheet that count. A read that fails is told: a picture of half a sheet would be of other rules.
pub fn sheet(path: &Path) -> Result<Vec<u8>, String> {
    let read = if is_input(path) {
        some(io::stdin().lock(), MOST)
    } else {
        File::open(path).and_then(|file| some(file, MOST))
    };
    read.map_err(|error| format!("{}: the sheet cannot be read: {error}", name(path)))
}

/// The bytes of a file of names, which 256 names do not fill.
pub fn names(path: &Path) -> Result<Vec<u8>, String> {
    let told = |what: String| format!("{}: the names cannot be read: {what}", path.display());
    let read = File::open(path).and_then(|file| some(file, MOST + 1));
    let bytes = read.map_err(|error| told(error.to_string()))?;
    if bytes.len() > MOST {
        return Err(told(format!("there are more than {MOST} bytes")));
    }
    Ok(bytes)
}

/// Tells these lines on standard error. Where that fails there is nobody to tell.
pub fn tell(lines: impl Iterator<Item = String>) {
    let mut errors = io::BufWriter::new(io::stderr().lock());
    for line in lines {
        let _ = writeln!(errors, "{line}");
    }
    let _ = errors.flush();
}

fn print(text: &str) -> io::Result<()> {
    let mut output = io::stdout().lock();
    output.write_all(text.as_bytes())?;
    output.flush()
}

/// Writes what was made, whole: over the file at the path, in one step, or to standard output.
pub fn write(text: &str, path: Option<&Path>) -> Result<(), Failure> {
    let Some(path) = path else {
        return print(text).map_err(|error| match error.kind() {
            ErrorKind::BrokenPipe => Failure::Quiet,
            _ => Failure::Told(UNWRITTEN.to_string()),
        });
    };
    let told = |error| format!("{UNWRITTEN}: {}: {error}", path.display());
    replace_file(path, text.as_bytes()).map_err(|error| told(error).into())
}
