//! What one line of a sheet says.

use crate::calls::Call;
use crate::limits::LINE_BYTES;

#[derive(Clone, PartialEq, Eq, Debug)]
pub enum Line {
    /// Prints nothing.
    Blank,
    /// Question 14 is answered "no".
    LineTooLong,
    /// Question 13 is answered "no".
    NotACommand,
    Command(Command),
}

#[derive(Clone, PartialEq, Eq, Debug)]
pub enum Command {
    /// An addition, a removal or a replacement.
    Change(Call),
    Why {
        atom: u32,
    },
    Labels,
}

impl Command {
    /// The call that changes the table, if the command is one.
    pub fn change(self) -> Option<Call> {
        match self {
            Command::Change(call) => Some(call),
            Command::Why { .. } | Command::Labels => None,
        }
    }
}

/// Reads a line without its newline. Over-long lines of spaces are not blank, so length is
/// asked first and blankness only of what is short enough.
pub fn read_line(line: &[u8]) -> Line {
    if line.len() > LINE_BYTES {
        return Line::LineTooLong;
    }
    let tokens: Vec<&[u8]> = line
        .split(|&byte| byte == b' ')
        .filter(|token| !token.is_empty())
        .collect();
    if tokens.is_empty() {
        return Line::Blank;
    }
    read_command(&tokens).map_or(Line::NotACommand, Line::Command)
}

fn read_command(tokens: &[&[u8]]) -> Option<Command> {
    match tokens {
        [b"W", atom] => Some(Command::Why {
            atom: read_number(atom)?,
        }),
        [b"L"] => Some(Command::Labels),
        _ => read_change(tokens).map(Command::Change),
    }
}

fn read_change(tokens: &[&[u8]]) -> Option<Call> {
    match tokens {
        [b"A", head, b":", lists @ ..] => {
            let (positives, negatives) = read_lists(lists)?;
            Some(Call::Add {
                head: read_number(head)?,
                positives,
                negatives,
            })
        }
        [b"P", slot, head, b":", lists @ ..] => {
            let (positives, negatives) = read_lists(lists)?;
            Some(Call::Replace {
                slot: read_number(slot)?,
                head: read_number(head)?,
                positives,
                negatives,
            })
        }
        [b"R", slot] => Some(Call::Remove {
            slot: read_number(slot)?,
        }),
        _ => None,
    }
}

/// The positives stand before the first `!`, the negatives after it. A second `!` or `:` is
/// no number, so it spoils the form.
fn read_lists(lists: &[&[u8]]) -> Option<(Vec<u32>, Vec<u32>)> {
    let mark = lists.iter().position(|token| *token == b"!");
    let (positives, negatives) = match mark {
        Some(place) => (&lists[..place], &lists[place + 1..]),
        None => (lists, &[][..]),
    };
    Some((read_numbers(positives)?, read_numbers(negatives)?))
}

fn read_numbers(tokens: &[&[u8]]) -> Option<Vec<u32>> {
    tokens.iter().map(|token| read_number(token)).collect()
}

/// A number has 1 to 5 decimal digits and no needless leading zero.
fn read_number(token: &[u8]) -> Option<u32> {
    let needless_zero = token.len() > 1 && token[0] == b'0';
    let digits_only = token.iter().all(u8::is_ascii_digit);
    if token.is_empty() || token.len() > 5 || needless_zero || !digits_only {
        return None;
    }
    Some(
        token
            .iter()
            .fold(0, |number, digit| number * 10 + u32::from(digit - b'0')),
    )
}
