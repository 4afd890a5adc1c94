//! Reads a sheet line by line as the sheet program does, and the names of atoms.

use std::collections::BTreeMap;
use std::fmt;
use yeqontur::{advice, raw, words, Refusal, Table};

pub type Names = BTreeMap<u32, String>;

/// How many bytes of a sheet are read at most, as if it ended there.
pub const MOST: usize = 1_048_576;

/// How many bytes a line of a sheet has at most.
const LONGEST: usize = 120;

/// A line that was refused: its number, from 1, and that of the refusal.
#[derive(Clone, Copy, PartialEq, Eq, Debug)]
pub struct Refused {
    pub line: usize,
    pub number: u32,
}

/// As the sheet program prints it, with words that a person can act on.
impl fmt::Display for Refused {
    fn fmt(&self, f: &mut fmt::Formatter<'_>) -> fmt::Result {
        let Refused { line, number } = *self;
        let (words, advice) = (words(number), advice(number));
        let (words, advice) = (words.unwrap_or_default(), advice.unwrap_or_default());
        write!(f, "line {line} refused {number}: {words}; {advice}")
    }
}

/// A number of a sheet: 1 to 5 digits, without a needless zero.
pub fn number(word: &[u8]) -> Option<u32> {
    let digits = word.len() <= 5 && word.iter().all(u8::is_ascii_digit);
    let needless = word.len() > 1 && word[0] == b'0';
    if !digits || needless {
        return None;
    }
    std::str::from_utf8(word).ok()?.parse().ok()
}

fn numbers(words: &[&[u8]]) -> Option<Vec<u32>> {
    words.iter().map(|word| number(word)).collect()
}

/// The positives, and behind a `!` the negatives.
fn lists(words: &[&[u8]]) -> Option<(Vec<u32>, Vec<u32>)> {
    let (positives, negatives) = match words.iter().position(|word| *word == b"!") {
        Some(mark) => (&words[..mark], &words[mark + 1..]),
        None => (words, &[][..]),
    };
    Some((numbers(positives)?, numbers(negatives)?))
}

/// Obeys a command; none if the words are not one. Only what `L` and `W` print is left out: whether the atom of `W` is
/// in is asked all the same, since the line is refused where it is not.
fn obeyed(table: &mut Table, words: &[&[u8]]) -> Option<Result<(), Refusal>> {
    Some(match words {
        [b"A", head, b":", entries @ ..] => {
            let (positives, negatives) = lists(entries)?;
            let added = table.add(number(head)?, &positives, &negatives);
            added.map(|_| ())
        }
        [b"P", slot, head, b":", entries @ ..] => {
            let (positives, negatives) = lists(entries)?;
            table.replace(number(slot)?, number(head)?, &positives, &negatives)
        }
        [b"R", slot] => table.remove(number(slot)?),
        [b"W", atom] => table.reason(number(atom)?).map(|_| ()),
        [b"L"] => Ok(()),
        _ => return None,
    })
}

/// Does what a line says, or answers the number of its refusal. Words are parted by spaces alone: a tab, and the CR of
/// a line that ends with CR LF, are part of a word.
fn obey(table: &mut Table, line: &[u8]) -> Result<(), u32> {
    if line.len() > LONGEST {
        return Err(14);
    }
    let words = line.split(|&byte| byte == b' ');
    let words: Vec<&[u8]> = words.filter(|word| !word.is_empty()).collect();
    if words.is_empty() {
        return Ok(());
    }
    let done = obeyed(table, &words).ok_or(13u32)?;
    done.map_err(Refusal::number)
}

/// The table that a sheet leaves, and the lines that were refused on the way: as in the sheet program, a refused line
/// changes nothing, and the next one is read.
pub fn read(sheet: &[u8]) -> (Table, Vec<Refused>) {
    let sheet = &sheet[..sheet.len().min(MOST)];
    let (mut table, mut refused) = (Table::new(), Vec::new());
    // Behind the last newline stands one more line, which is blank and says nothing.
    for (bytes, line) in sheet.split(|&byte| byte == b'\n').zip(1..) {
        if let Err(number) = obey(&mut table, bytes) {
            refused.push(Refused { line, number });
        }
    }
    (table, refused)
}

/// The table with the rules in these slots muted.
pub fn muted(mut table: Table, slots: &[String]) -> Result<Table, String> {
    for slot in slots {
        let read = number(slot.as_bytes());
        let read =
            read.ok_or_else(|| format!("not a slot: {slot}; a slot is a number below 256"))?;
        let told = table.mute(read);
        told.map_err(|refusal| format!("slot {slot} {refusal}"))?;
    }
    Ok(table)
}

/// Some editors put this before the first line of a file in UTF-8.
const MARK: &[u8] = b"\xef\xbb\xbf";

/// Lines of an atom's number, a blank, and its name. People write them in editors, so a CR before the newline, blanks
/// at either end and blank lines are passed over. Where a line is wrong, what is wrong with it.
pub fn names(text: impl AsRef<[u8]>) -> Result<Names, String> {
    let text = text.as_ref();
    let text = text.strip_prefix(MARK).unwrap_or(text);
    let mut names = Names::new();
    for (bytes, line) in text.split(|&byte| byte == b'\n').zip(1..) {
        let taken = take_name(&mut names, bytes);
        taken.map_err(|sentence| format!("line {line}: {sentence}"))?;
    }
    Ok(names)
}

/// Takes the name of a line.
fn take_name(names: &mut Names, line: &[u8]) -> Result<(), String> {
    let line = std::str::from_utf8(line).map_err(|_| "not UTF-8: save the names as UTF-8")?;
    if line.trim().is_empty() {
        return Ok(());
    }
    let parts = line.trim().split_once([' ', '\t']);
    let parts = parts.and_then(|(atom, name)| Some((number(atom.as_bytes())?, name.trim())));
    let (atom, name) = parts.ok_or("a line of names is an atom's number, a blank, and the name")?;
    if atom as usize >= raw::ATOMS {
        return Err(format!("atom {atom} {}", Refusal::AtomTooLarge));
    }
    match names.insert(atom, name.to_string()) {
        Some(first) => Err(format!("atom {atom} is named already: {first}")),
        None => Ok(()),
    }
}
