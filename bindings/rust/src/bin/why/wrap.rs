//! Parts a text into lines: at blanks, and inside a word only where it is longer than a line.

use crate::measure::{clusters, width};

/// How a text is written, and how wide its first line and the others may be.
#[derive(Clone, Copy)]
pub struct Room {
    pub size: f64,
    pub bold: bool,
    pub first: f64,
    pub others: f64,
}

struct Lines {
    room: Room,
    found: Vec<String>,
    /// How wide the last line is, with the blanks at its end.
    wide: f64,
}

/// A piece ends behind a blank or a sign that parts syllables, or a path or a name.
fn ends_piece(letter: char) -> bool {
    matches!(
        letter,
        ' ' | '/' | '\\' | '_' | '-' | '\u{F0B}' | '\u{200B}' | '\u{3000}'
    )
}

impl Lines {
    fn limit(&self) -> f64 {
        if self.found.len() == 1 {
            self.room.first
        } else {
            self.room.others
        }
    }

    fn measured(&self, text: &str) -> f64 {
        width(text, self.room.size, self.room.bold)
    }

    fn fits(&self, text: &str) -> bool {
        self.wide + self.measured(text.trim_end()) <= self.limit()
    }

    fn add(&mut self, text: &str) {
        self.wide += self.measured(text);
        if let Some(last) = self.found.last_mut() {
            last.push_str(text);
        }
    }

    /// Starts a line, unless the last one is empty still.
    fn next(&mut self) {
        if self.found.last().is_some_and(|last| !last.is_empty()) {
            self.found.push(String::new());
            self.wide = 0.0;
        }
    }

    /// Adds text that stays whole, on a line of its own if it does not fit.
    fn whole(&mut self, text: &str) {
        if !self.fits(text) {
            self.next();
        }
        self.add(text);
    }

    /// Adds a letter with its marks; where even that is wider than a line, it is parted too.
    fn cluster(&mut self, text: &str) {
        if self.measured(text) <= self.room.others {
            return self.whole(text);
        }
        for letter in text.chars() {
            self.whole(letter.encode_utf8(&mut [0; 4]));
        }
    }

    fn piece(&mut self, piece: &str) {
        if self.fits(piece) || self.measured(piece.trim_end()) <= self.room.others {
            return self.whole(piece);
        }
        for cluster in clusters(piece) {
            self.cluster(cluster);
        }
    }
}

/// The lines of a text.
pub fn wrapped(text: &str, room: Room) -> Vec<String> {
    let mut lines = Lines {
        room,
        found: vec![String::new()],
        wide: 0.0,
    };
    for piece in text.split_inclusive(ends_piece) {
        lines.piece(piece);
    }
    let found = lines.found.into_iter();
    found.map(|line| line.trim_end().to_string()).collect()
}
