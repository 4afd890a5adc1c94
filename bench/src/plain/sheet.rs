//! The sheet program: the same reads, calls, questions and writes as the proved one's.

use super::calls::EMPTY;
use super::lines::{self, LINE, ROOM};
use super::replies::reply;
use std::io::{self, Read, Write};
use yeqontur::raw::Table;

/// The most bytes of input that are read, as if it ended there: `MOST` of crates/sheet_meaning/specs/Sheets.antt.
const MOST: usize = 1_048_576;

/// How many bytes a read or a write has at most.
const PIECE: usize = 65_536;

/// Room for the longest reply.
const REPLY: usize = 8_192;

/// A sheet as far as it was read: the table, and the number and the bytes of the line at hand. Of a line that is too
/// long, as many bytes are kept as show that.
struct Sheet {
    table: Table,
    number: u32,
    line: Vec<u8>,
    lists: [u32; ROOM],
    out: Vec<u8>,
}

impl Sheet {
    fn start() -> Sheet {
        Sheet {
            table: EMPTY,
            number: 1,
            line: Vec::with_capacity(LINE + 1),
            lists: [0; ROOM],
            out: Vec::with_capacity(PIECE),
        }
    }

    fn keep(&mut self, bytes: &[u8]) {
        let free = LINE + 1 - self.line.len();
        self.line.extend_from_slice(&bytes[..bytes.len().min(free)]);
    }

    /// Replies to the line at hand and goes on to the next.
    fn end_line(&mut self) {
        let line = lines::read(&self.line, &mut self.lists);
        reply(&mut self.table, self.number, line, &mut self.out);
        self.line.clear();
        self.number += 1;
    }

    fn write(&mut self, output: &mut impl Write) -> io::Result<()> {
        output.write_all(&self.out)?;
        self.out.clear();
        Ok(())
    }

    /// Replies to the lines that end in a piece, and writes when there may be too little room for another reply.
    fn feed(&mut self, piece: &[u8], output: &mut impl Write) -> io::Result<()> {
        let mut rest = piece;
        while let Some(end) = rest.iter().position(|&b| b == b'\n') {
            self.keep(&rest[..end]);
            self.end_line();
            rest = &rest[end + 1..];
            if PIECE - self.out.len() < REPLY {
                self.write(output)?;
            }
        }
        self.keep(rest);
        self.write(output)
    }
}

/// Answers each line as it comes. A read that fails ends the input as its end does; the last line may lack its newline.
pub fn run(mut input: impl Read, mut output: impl Write) -> io::Result<()> {
    let mut sheet = Sheet::start();
    let mut piece = [0; PIECE];
    let mut left = MOST;
    while left > 0 {
        let read = input.read(&mut piece[..left.min(PIECE)]).unwrap_or(0);
        if read == 0 {
            break;
        }
        sheet.feed(&piece[..read], &mut output)?;
        left -= read;
    }
    sheet.end_line();
    sheet.write(&mut output)?;
    output.flush()
}

#[cfg(test)]
mod tests {
    use super::run;
    use oracle::generate::sheets;
    use oracle::random::Random;
    use std::io::{self, Read};

    /// Bytes that come in pieces of random length.
    struct Pieces<'a> {
        rest: &'a [u8],
        most: usize,
        random: Random,
    }

    impl Read for Pieces<'_> {
        fn read(&mut self, buffer: &mut [u8]) -> io::Result<usize> {
            let length = self.random.between(1, self.most).min(buffer.len());
            self.rest.read(&mut buffer[..length])
        }
    }

    #[test]
    fn plain_rust_prints_what_the_slow_engine_prints() {
        let mut random = Random::seeded(1);
        for (number, &flavour) in (0..400).zip(sheets::FLAVOURS.iter().cycle()) {
            let sheet = sheets::sheet(&mut random, flavour);
            let pieces = Pieces {
                rest: &sheet,
                most: *random.pick(&[7, 200, 4_096, 100_000]),
                random: Random::seeded(number),
            };
            let mut printed = Vec::new();
            run(pieces, &mut printed).expect("room for what is printed");
            let same = printed == oracle::sheet::run(&sheet);
            assert!(same, "sheet {number}, {flavour:?}");
        }
    }
}
