//! A name as it is drawn: without letters that no picture can hold or that would turn the words behind it around,
//! without marks that would reach far into other lines, and of a very long one its beginning and its end. A number as it is
//! drawn.

use crate::measure::{clusters, most_marks, seen, width};

/// How long a name is at most, as many times the size of its letters; and its parts, where it is longer.
const LONGEST: f64 = 160.0;
const BEGINNING: f64 = 90.0;
const END: f64 = 40.0;

/// XML has no control characters. The others here change the direction of what follows, even behind the name, or end a
/// line.
fn drawn(letter: char) -> Option<char> {
    match letter {
        '\u{202A}'..='\u{202E}' | '\u{2066}'..='\u{2069}' => None,
        '\u{2028}' | '\u{2029}' => Some(' '),
        '\u{FFFE}' | '\u{FFFF}' => Some('\u{FFFD}'),
        _ if letter.is_control() => Some(' '),
        _ => Some(letter),
    }
}

/// How many of the parts, in this order, are together not wider than that.
fn fitting<'a>(parts: impl Iterator<Item = &'a &'a str>, most: f64) -> usize {
    let mut wide = 0.0;
    let fits = |part: &&&str| {
        wide += width(part, 1.0, false);
        wide <= most
    };
    parts.take_while(fits).count()
}

/// The name without the marks that a letter has too many of: they would reach far into other lines. What is not seen
/// between marks does not part them.
fn marked(name: &str) -> String {
    let mut marks = 0;
    let has_room = |letter: &char| match most_marks(*letter) {
        Some(most) => {
            marks += 1;
            marks <= most
        }
        None if seen(*letter) => {
            marks = 0;
            true
        }
        None => {
            marks *= usize::from(!letter.is_whitespace());
            true
        }
    };
    name.chars().filter(has_room).collect()
}

pub fn shown(name: &str) -> String {
    let name: String = name.chars().filter_map(drawn).collect();
    let name = marked(&name);
    if width(&name, 1.0, false) <= LONGEST {
        return name;
    }
    let parts = clusters(&name);
    let first = fitting(parts.iter(), BEGINNING);
    let last = parts.len() - fitting(parts.iter().rev(), END);
    let left_out = parts[first..last].len();
    let (beginning, end) = (parts[..first].concat(), parts[last..].concat());
    let left_out = figures(left_out);
    format!("{beginning} ... ({left_out} letters left out) ... {end}")
}

/// A number with a comma before each three figures.
pub fn figures(number: usize) -> String {
    let figures = number.to_string();
    let mut out = String::new();
    for (place, figure) in figures.chars().enumerate() {
        if place > 0 && (figures.len() - place).is_multiple_of(3) {
            out.push(',');
        }
        out.push(figure);
    }
    out
}
