//! Random sheets: stories, refusals, lines without a form, garbage, and lengths at the limits.

use crate::book::Book;
use crate::calls::Call;
use crate::command::{read_line, Line};
use crate::generate::again::{Earlier, Named};
use crate::generate::lines::{
    addition, any_line, bytes_of, command, long_or_command, named, replacing,
};
use crate::generate::replacements::any_replacement;
use crate::limits::{INPUT_BYTES, SLOTS};
use crate::random::Random;

#[derive(Clone, Copy, PartialEq, Eq, Debug)]
pub enum Flavour {
    /// Nothing at all, or newlines and spaces only.
    Empty,
    /// Commands over a handful of atoms.
    Story,
    /// A story with every kind of bad line between.
    Mixed,
    /// More additions than there are slots.
    Crowded,
    /// A long chain, listed and asked for.
    Chain,
    /// Lines of lengths around the limit.
    LongLines,
    /// Random bytes.
    Garbage,
    /// More bytes than are read, cut within a line.
    Cut,
}

pub const FLAVOURS: [Flavour; 8] = [
    Flavour::Empty,
    Flavour::Story,
    Flavour::Mixed,
    Flavour::Crowded,
    Flavour::Chain,
    Flavour::LongLines,
    Flavour::Garbage,
    Flavour::Cut,
];

/// A random sheet of that flavour.
pub fn sheet(random: &mut Random, flavour: Flavour) -> Vec<u8> {
    let mut sheet = match flavour {
        Flavour::Empty => bytes_of(random, b"  \n", 400),
        Flavour::Story => {
            let story = repeated(random, 50, |random| command(random, 6, 8));
            with_some_more(random, &story)
        }
        Flavour::Mixed => {
            let mixed = repeated(random, 100, |random| any_line(random, 6, 8));
            with_some_more(random, &mixed)
        }
        Flavour::Crowded => {
            let crowded = crowded(random);
            with_some_more(random, &crowded)
        }
        Flavour::Chain => chain(random),
        Flavour::LongLines => repeated(random, 60, long_or_command),
        Flavour::Garbage => garbage(random),
        Flavour::Cut => return cut(random),
    };
    if random.percent(30) && sheet.ends_with(b"\n") {
        sheet.pop();
    }
    sheet
}

/// At most that many lines.
fn repeated(random: &mut Random, most: usize, line: impl Fn(&mut Random) -> Vec<u8>) -> Vec<u8> {
    let mut sheet = Vec::new();
    for _ in 0..random.between(1, most) {
        sheet.extend(line(random));
        sheet.push(b'\n');
    }
    sheet
}

/// A sheet that gets longer, what its additions named, and the pages that its lines leave.
struct Longer {
    sheet: Vec<u8>,
    earlier: Earlier,
    book: Book,
}

impl Longer {
    fn start() -> Longer {
        Longer {
            sheet: Vec::new(),
            earlier: Earlier::default(),
            book: Book::empty(),
        }
    }

    /// Puts a line behind the others, with its newline.
    fn push(&mut self, line: &[u8]) {
        self.sheet.extend(line);
        let Line::Command(command) = read_line(line.strip_suffix(b"\n").unwrap_or(line)) else {
            return;
        };
        let Some(call) = command.change() else { return };
        // A refused change leaves the pages.
        let _ = self.book.make(&call);
        if let Call::Add {
            head,
            positives,
            negatives,
        } = call
        {
            self.earlier.note(Named {
                head,
                positives,
                negatives,
            });
        }
    }

    /// A replacement on the pages.
    fn replace(&mut self, random: &mut Random) {
        let (slot, rule) = any_replacement(random, self.book.pages());
        self.push((replacing(slot, &rule) + "\n").as_bytes());
    }
}

/// The sheet, with an addition named again after one line in six, and a replacement after one in eight.
fn with_some_more(random: &mut Random, sheet: &[u8]) -> Vec<u8> {
    let mut longer = Longer::start();
    for line in sheet.split_inclusive(|&byte| byte == b'\n') {
        longer.push(line);
        let again = (random.below(6) == 0).then(|| longer.earlier.again(random));
        if let Some(again) = again.flatten() {
            longer.push((named(&again) + "\n").as_bytes());
        }
        if random.below(8) == 0 {
            longer.replace(random);
        }
    }
    longer.sheet
}

fn crowded(random: &mut Random) -> Vec<u8> {
    let mut sheet = Vec::new();
    for _ in 0..random.between(300, 700) {
        let line = if random.percent(90) {
            addition(random, 256)
        } else {
            format!("R {}", random.below(256))
        };
        sheet.extend(line.into_bytes());
        sheet.push(b'\n');
    }
    sheet.extend(repeated(random, 20, |random| command(random, 256, 256)));
    sheet
}

fn chain(random: &mut Random) -> Vec<u8> {
    let length = if random.percent(40) {
        SLOTS
    } else {
        random.between(2, SLOTS)
    };
    let mut atoms: Vec<usize> = (1..length).collect();
    if random.percent(50) {
        atoms.reverse();
    }
    let rules = atoms
        .iter()
        .map(|atom| format!("A {atom} : {}\n", atom - 1));
    let mut sheet = Longer::start();
    rules.for_each(|line| sheet.push(line.as_bytes()));
    sheet.push(b"A 0 :\n");
    sheet.push(b"L\n");
    sheet.push(format!("W {}\n", length - 1).as_bytes());
    for _ in 0..random.below(4) {
        sheet.replace(random);
    }
    sheet.push(b"L\n");
    sheet.push(format!("R {}\n", random.below(length)).as_bytes());
    sheet.push(b"L\n");
    sheet.sheet
}

fn garbage(random: &mut Random) -> Vec<u8> {
    let count = random.between(0, 3_000);
    let newlines = random.between(1, 10);
    (0..count)
        .map(|_| {
            if random.percent(newlines) {
                b'\n'
            } else {
                random.word() as u8
            }
        })
        .collect()
}

/// A sheet of which no more than the limit is read: it ends a few bytes past the start of a
/// command, so that what is left of the line is another command, or none.
fn cut(random: &mut Random) -> Vec<u8> {
    let mut sheet = repeated(random, 40, |random| command(random, 30, 20));
    let last = *random.pick(&[
        &b"A 200 : 1 2 ! 34\nL\n"[..],
        b"R 12\nL\n",
        b"P 12 200 : 1 2 ! 34\nL\n",
        b"W 255\n",
        b"L\nL\n",
    ]);
    let kept = random.between(0, last.len());
    let start = INPUT_BYTES - kept;
    let beside_commands = [
        b"A 256 :\n".to_vec(),
        vec![b'x'; 4_000],
        vec![b' '; 4_000],
        b"\n".repeat(500),
        b"L1\n".to_vec(),
    ];
    while sheet.len() + 5_000 < start {
        sheet.extend(random.pick(&beside_commands));
        sheet.push(b'\n');
    }
    sheet.resize(start - 1, b' ');
    sheet.push(b'\n');
    sheet.extend(last);
    if random.percent(50) {
        sheet.extend(repeated(random, 200, |random| command(random, 30, 20)));
    }
    sheet
}
