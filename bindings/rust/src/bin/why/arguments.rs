//! What the words of the command line ask for. Paths are taken as they come; other words are read as text.

use std::ffi::OsString;
use std::path::{Path, PathBuf};

/// How the program is called, by the name that it was called by: installed it has another one.
pub fn usage() -> String {
    let path = std::env::args_os().next().map(PathBuf::from);
    let name = path.as_deref().and_then(Path::file_name);
    let name = name.map_or("why".into(), |name| name.to_string_lossy());
    format!(
        "usage: {name} [--json] [-o PATH] checklist FILES [sent NUMBER..] [skipped NUMBER..] [good NUMBER]
       {name} [--json] [-o PATH] SHEET ATOM [NAMES] [muted SLOT..]"
    )
}

/// What `--help` prints below the usage.
pub const HELP: &str = "
Draws why an atom has its label, as an SVG on standard output.

  checklist  draws why a checklist of FILES files is complete or is not
  good       why this file of it, with those before it, is good or is not
  SHEET      the rules; - reads standard input
  ATOM       the atom, a number below 256
  NAMES      a file with a line for each atom that has a name: its number, a blank, and the name
  muted      the rules in these slots are muted after the sheet was read

  --json     prints the tree as JSON, for a program that draws it itself
  -o PATH    replaces the file at PATH once all is well, and leaves it as it was otherwise (also --output PATH)
  --help     prints this
  --         what comes behind is no option, even if it begins with -

Lines of the sheet that are refused are told on standard error, and the next line is read. The exit status is 0 if what
was asked for was made and written, and 1 otherwise.
";

/// Of what the tree is asked.
#[derive(PartialEq, Eq, Debug)]
pub enum Subject {
    /// The words behind `checklist`.
    Checklist(Vec<String>),
    Sheet {
        sheet: PathBuf,
        atom: String,
        names: Option<PathBuf>,
        muted: Vec<String>,
    },
}

#[derive(PartialEq, Eq, Debug)]
pub enum Asked {
    Help,
    Tree {
        subject: Subject,
        json: bool,
        /// Where it goes; to standard output if there is none.
        output: Option<PathBuf>,
    },
}

#[derive(Default)]
struct Options {
    help: bool,
    json: bool,
    output: Option<OsString>,
}

fn is_option(word: &OsString) -> bool {
    word != "-" && word.as_encoded_bytes().starts_with(b"-")
}

/// Takes the options out of the words, wherever they stand, and hands back the others.
fn parted(words: impl Iterator<Item = OsString>) -> Result<(Options, Vec<OsString>), String> {
    let (mut options, mut others) = (Options::default(), Vec::new());
    let mut words = words;
    while let Some(word) = words.next() {
        match word.to_str() {
            Some("--") => others.extend(words.by_ref()),
            Some("--help" | "-h") => options.help = true,
            Some("--json") => options.json = true,
            Some("-o" | "--output") => {
                let path = words.next().ok_or("the path behind -o is missing")?;
                if options.output.replace(path).is_some() {
                    return Err("-o stands twice: name one path".to_string());
                }
            }
            _ if is_option(&word) => {
                let word = word.to_string_lossy();
                return Err(format!("no such option: {word}\n{}", usage()));
            }
            _ => others.push(word),
        }
    }
    Ok((options, others))
}

/// Where bytes are no text, the signs that stand for them are told as no number.
fn text(words: &[OsString]) -> Vec<String> {
    let text = words.iter().map(|word| word.to_string_lossy());
    text.map(|word| word.into_owned()).collect()
}

/// What stands behind the atom: NAMES, if they are there, and the slots behind `muted`.
fn names_and_muted(words: &[OsString]) -> Result<(Option<&OsString>, &[OsString]), String> {
    match words {
        [] => Ok((None, &[])),
        [word, slots @ ..] if word == "muted" => Ok((None, slots)),
        [names] => Ok((Some(names), &[])),
        [names, word, slots @ ..] if word == "muted" => Ok((Some(names), slots)),
        _ => Err(usage()),
    }
}

fn subject(words: &[OsString]) -> Result<Subject, String> {
    match words {
        [first, marks @ ..] if first == "checklist" => Ok(Subject::Checklist(text(marks))),
        [sheet, atom, rest @ ..] => {
            let (names, muted) = names_and_muted(rest)?;
            Ok(Subject::Sheet {
                sheet: PathBuf::from(sheet),
                atom: atom.to_string_lossy().into_owned(),
                names: names.map(PathBuf::from),
                muted: text(muted),
            })
        }
        _ => Err(usage()),
    }
}

/// What the words ask for, or a sentence that says what is wrong with them.
pub fn read(words: impl Iterator<Item = OsString>) -> Result<Asked, String> {
    let (options, others) = parted(words)?;
    if options.help {
        return Ok(Asked::Help);
    }
    let output = options.output.filter(|path| path != "-");
    Ok(Asked::Tree {
        subject: subject(&others)?,
        json: options.json,
        output: output.map(PathBuf::from),
    })
}
