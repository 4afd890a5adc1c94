//! The sheets that are timed. Each is the same in every run and has no more bytes than a program reads.

use oracle::book::Book;
use oracle::generate::again::Named;
use oracle::generate::lines::{named, replacing, FORMLESS};
use oracle::limits::{ATOMS, SLOTS};
use oracle::random::Random;

pub struct Sheet {
    pub name: &'static str,
    pub bytes: Vec<u8>,
}

impl Sheet {
    pub fn lines(&self) -> usize {
        self.bytes.iter().filter(|&&byte| byte == b'\n').count()
    }
}

/// A sheet under way: its lines, the rules after them, and what named each held rule by its slot. Heads are below
/// `atoms`.
struct Writer {
    atoms: usize,
    random: Random,
    book: Book,
    held: Vec<(u32, Named)>,
    sheet: Vec<u8>,
}

impl Writer {
    /// A sheet that adds random rules until this many are held.
    fn filled(seed: u64, atoms: usize, count: usize) -> Writer {
        let mut writer = Writer {
            atoms,
            random: Random::seeded(seed),
            book: Book::empty(),
            held: Vec::new(),
            sheet: Vec::new(),
        };
        while writer.held.len() < count {
            writer.add();
        }
        writer
    }

    fn line(&mut self, line: &[u8]) {
        self.sheet.extend_from_slice(line);
        self.sheet.push(b'\n');
    }

    /// A rule with up to 3 entries in any order, all below its head, so that it closes no loop.
    fn rule(&mut self) -> Named {
        let head = self.random.below(self.atoms) as u32;
        let below: Vec<u32> = (head.saturating_sub(30)..head).collect();
        let count = self.random.below(4);
        let entries = self.random.sample(&below, count);
        let negative = self.random.percent(30);
        let cut = if negative {
            entries.len() / 2
        } else {
            entries.len()
        };
        let (positives, negatives) = entries.split_at(cut);
        Named {
            head,
            positives: positives.to_vec(),
            negatives: negatives.to_vec(),
        }
    }

    /// A rule that is held already is refused.
    fn add(&mut self) {
        let rule = self.rule();
        self.line(named(&rule).as_bytes());
        let added = self.book.add(rule.head, &rule.positives, &rule.negatives);
        if let Ok(slot) = added {
            self.held.push((slot, rule));
        }
    }

    /// The same in the place of a held rule.
    fn replace(&mut self) {
        let rule = self.rule();
        let place = self.random.below(self.held.len());
        let slot = self.held[place].0;
        self.line(replacing(slot, &rule).as_bytes());
        let (positives, negatives) = (&rule.positives, &rule.negatives);
        let replaced = self.book.replace(slot, rule.head, positives, negatives);
        if replaced.is_ok() {
            self.held[place].1 = rule;
        }
    }

    /// The line of a held rule, its lists in any order.
    fn again(&mut self) -> String {
        let mut rule = self.random.pick(&self.held).1.clone();
        self.random.shuffle(&mut rule.positives);
        self.random.shuffle(&mut rule.negatives);
        named(&rule)
    }

    fn remove(&mut self) {
        let place = self.random.below(self.held.len());
        let (slot, _) = self.held.swap_remove(place);
        self.line(format!("R {slot}").as_bytes());
        self.book.remove(slot).expect("a held rule");
    }

    /// Asks for the reason of a held rule's head; one that is not in is refused.
    fn why(&mut self) {
        let slot = self.random.pick(&self.held).0;
        let page = self.book.pages()[slot as usize].as_ref();
        let head = page.expect("a held rule").rule.head;
        self.line(format!("W {head}").as_bytes());
    }

    /// A line of the first so many kinds: blank, or refused by 13, 14, 5, 9. Only the last two reach the table. No rule
    /// was removed yet, so that the last slots are free.
    fn refused(&mut self, kinds: usize) {
        let line = match self.random.below(kinds) {
            0 => vec![b' '; self.random.below(10)],
            1 => self.random.pick(&FORMLESS).to_vec(),
            2 => vec![b'A'; self.random.between(121, 140)],
            3 => self.again().into_bytes(),
            _ => format!("R {}", self.random.between(self.held.len(), SLOTS - 1)).into_bytes(),
        };
        self.line(&line);
    }

    fn named(self, name: &'static str) -> Sheet {
        Sheet {
            name,
            bytes: self.sheet,
        }
    }
}

/// About 200 rules: additions and removals in turn, reasons between, a listing now and then.
fn churn() -> Sheet {
    let mut writer = Writer::filled(1, 150, 200);
    for _ in 0..20_000 {
        match writer.random.below(100) {
            0 => writer.line(b"L"),
            1..=20 => writer.why(),
            _ if writer.random.below(400) < writer.held.len() => writer.remove(),
            _ => writer.add(),
        }
    }
    writer.named("churn about 200 rules")
}

/// Each line is a replacement.
fn edits() -> Sheet {
    let mut writer = Writer::filled(4, 150, 200);
    (0..20_000).for_each(|_| writer.replace());
    writer.named("replacements of 200 rules")
}

fn refusals() -> Sheet {
    let mut writer = Writer::filled(2, 150, 200);
    (0..20_000).for_each(|_| writer.refused(5));
    writer.named("blank, refused 13, 14, 5, 9")
}

/// No line after the additions reaches the table: what is left is the cost of a line.
fn unread() -> Sheet {
    let mut writer = Writer::filled(2, 150, 200);
    (0..20_000).for_each(|_| writer.refused(3));
    writer.named("blank, refused 13, 14")
}

fn listings() -> Sheet {
    let mut writer = Writer::filled(3, ATOMS, SLOTS);
    (0..20_000).for_each(|_| writer.line(b"L"));
    writer.named("listings of a full table")
}

pub fn all() -> Vec<Sheet> {
    vec![churn(), edits(), refusals(), unread(), listings()]
}

#[cfg(test)]
mod tests {
    use super::{all, churn, edits, refusals, Sheet};
    use oracle::limits::INPUT_BYTES;
    use std::collections::BTreeMap;

    fn printed(sheet: Sheet) -> String {
        String::from_utf8(oracle::sheet::run(&sheet.bytes)).expect("text")
    }

    #[test]
    fn the_sheets_are_read_to_their_end() {
        for sheet in all() {
            assert!(sheet.bytes.len() <= INPUT_BYTES, "{}", sheet.name);
        }
    }

    #[test]
    fn the_first_sheet_keeps_about_200_rules() {
        let mut held = 0;
        let counts = printed(churn())
            .lines()
            .map(|line| {
                held += i32::from(line.starts_with("slot"));
                held -= i32::from(line.starts_with("removed"));
                held
            })
            .collect::<Vec<_>>();
        assert!(counts.len() > 20_000);
        assert!(counts[200..].iter().all(|held| (150..250).contains(held)));
    }

    #[test]
    fn most_replacements_are_accepted_and_some_rules_are_held_elsewhere() {
        let printed = printed(edits());
        let count = |text| printed.lines().filter(|line| line.contains(text)).count();
        assert!(count("replaced ") > 15_000 && count(" refused 5") > 100);
        assert_eq!(count("refused"), count(" refused 5"));
    }

    #[test]
    fn every_refusal_of_that_sheet_is_common() {
        let printed = printed(refusals());
        let mut counts = BTreeMap::new();
        for (_, number) in printed.lines().filter_map(|l| l.split_once(" refused ")) {
            *counts.entry(number).or_insert(0) += 1;
        }
        assert!(["5", "9", "13", "14"].iter().all(|n| counts[n] > 3_000));
    }
}
