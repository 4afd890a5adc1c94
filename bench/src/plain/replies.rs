//! The reply to a line of a sheet: what it does to the table, and what it prints.

use super::calls::{add, asked, labels_in, remove, replace, Label};
use super::lines::Line;
use super::reason::reason;
use yeqontur::raw::{Table, ATOMS};

/// Decimal digits.
fn write_number(out: &mut Vec<u8>, number: u32) {
    let mut digits = [0; 10];
    let (mut from, mut rest) = (9, number);
    while rest >= 10 {
        digits[from] = b'0' + (rest % 10) as u8;
        rest /= 10;
        from -= 1;
    }
    digits[from] = b'0' + rest as u8;
    out.extend_from_slice(&digits[from..]);
}

/// A word, and each number after a space.
fn write_fields(out: &mut Vec<u8>, word: &[u8], numbers: &[u32]) {
    out.extend_from_slice(word);
    for &number in numbers {
        out.push(b' ');
        write_number(out, number);
    }
}

/// The same with a newline.
fn write_line(out: &mut Vec<u8>, word: &[u8], numbers: &[u32]) {
    write_fields(out, word, numbers);
    out.push(b'\n');
}

/// The line of an atom, if it occurs.
fn write_label(out: &mut Vec<u8>, atom: usize, [state, depth, slot]: Label) {
    if state == 0 {
        return;
    }
    write_number(out, atom as u32);
    if state == 1 {
        return out.extend_from_slice(b" out\n");
    }
    write_line(out, b" in", &[depth.into(), slot.into()]);
}

/// Does what the line says and prints what it answers, or gives the number of its refusal.
fn obey(table: &mut Table, line: Line, out: &mut Vec<u8>) -> Result<(), u32> {
    match line {
        Line::Blank => {}
        Line::LineTooLong => return Err(14),
        Line::NotACommand => return Err(13),
        Line::Add(head, positives, negatives) => {
            let slot = add(table, head, positives, negatives)?;
            write_line(out, b"slot", &[slot]);
        }
        Line::Remove(slot) => {
            remove(table, slot)?;
            write_line(out, b"removed", &[slot]);
        }
        Line::Replace(slot, head, positives, negatives) => {
            replace(table, slot, head, positives, negatives)?;
            write_line(out, b"replaced", &[slot]);
        }
        Line::Why(atom) => {
            let mut slots = [0; ATOMS];
            let count = reason(table, atom, &mut slots)?;
            write_line(out, b"why", &slots[..count]);
        }
        Line::Labels => {
            asked(table)?;
            let labels = labels_in(table).into_iter().enumerate();
            labels.for_each(|(atom, label)| write_label(out, atom, label));
        }
    }
    Ok(())
}

/// Obeys the line of this number, and prints its answer or its refusal.
pub fn reply(table: &mut Table, number: u32, line: Line, out: &mut Vec<u8>) {
    if let Err(refusal) = obey(table, line, out) {
        write_fields(out, b"line", &[number]);
        write_line(out, b" refused", &[refusal]);
    }
}
