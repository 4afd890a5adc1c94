//! Reading a line of a sheet.

/// The most bytes of a line, its newline not counted.
pub const LINE: usize = 120;

/// Room for every entry of a line: a line has at most 60 tokens.
pub const ROOM: usize = LINE / 2;

/// What a line is. The lists of a rule stand in the room lent for them.
pub enum Line<'a> {
    Blank,
    LineTooLong,
    NotACommand,
    Add(u32, &'a [u32], &'a [u32]),
    Remove(u32),
    Replace(u32, u32, &'a [u32], &'a [u32]),
    Why(u32),
    Labels,
}

/// The number that a token is: 1 to 5 digits, no needless zero.
fn number(token: &[u8]) -> Option<u32> {
    if token.len() > 5 || (token.len() > 1 && token[0] == b'0') {
        return None;
    }
    let digit = |n: u32, b: &u8| Some(n * 10 + u32::from(b.is_ascii_digit().then(|| b - b'0')?));
    token.iter().try_fold(0, digit)
}

/// The number that the rest of the line is.
fn only<'l>(mut tokens: impl Iterator<Item = &'l [u8]>) -> Option<u32> {
    let n = number(tokens.next()?)?;
    tokens.next().is_none().then_some(n)
}

/// A head, then both lists.
type Named<'a> = (u32, &'a [u32], &'a [u32]);

/// The rest of a line that names a rule.
fn rule<'l, 'a>(
    mut tokens: impl Iterator<Item = &'l [u8]>,
    room: &'a mut [u32; ROOM],
) -> Option<Named<'a>> {
    let head = number(tokens.next()?)?;
    if tokens.next()? != b":" {
        return None;
    }
    let (mut count, mut mark) = (0, None);
    for token in tokens {
        if token == b"!" && mark.is_none() {
            mark = Some(count);
            continue;
        }
        room[count] = number(token)?;
        count += 1;
    }
    let (positives, negatives) = room[..count].split_at(mark.unwrap_or(count));
    Some((head, positives, negatives))
}

/// What follows the `A` of an addition.
fn addition<'l, 'a>(
    tokens: impl Iterator<Item = &'l [u8]>,
    room: &'a mut [u32; ROOM],
) -> Option<Line<'a>> {
    let (head, positives, negatives) = rule(tokens, room)?;
    Some(Line::Add(head, positives, negatives))
}

/// What follows the `P` of a replacement.
fn replacement<'l, 'a>(
    mut tokens: impl Iterator<Item = &'l [u8]>,
    room: &'a mut [u32; ROOM],
) -> Option<Line<'a>> {
    let slot = number(tokens.next()?)?;
    let (head, positives, negatives) = rule(tokens, room)?;
    Some(Line::Replace(slot, head, positives, negatives))
}

/// The command of a line that has a token.
fn command<'l, 'a>(
    word: &[u8],
    mut tokens: impl Iterator<Item = &'l [u8]>,
    room: &'a mut [u32; ROOM],
) -> Option<Line<'a>> {
    match word {
        b"A" => addition(tokens, room),
        b"P" => replacement(tokens, room),
        b"R" => only(tokens).map(Line::Remove),
        b"W" => only(tokens).map(Line::Why),
        b"L" => tokens.next().is_none().then_some(Line::Labels),
        _ => None,
    }
}

/// What a line is. Any bytes may come in.
pub fn read<'a>(line: &[u8], room: &'a mut [u32; ROOM]) -> Line<'a> {
    if line.len() > LINE {
        return Line::LineTooLong;
    }
    let mut tokens = line.split(|&b| b == b' ').filter(|token| !token.is_empty());
    match tokens.next() {
        None => Line::Blank,
        Some(word) => command(word, tokens, room).unwrap_or(Line::NotACommand),
    }
}
