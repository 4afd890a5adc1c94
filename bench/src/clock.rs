//! Times as the best of many batches, so that what else the machine does counts little.

use std::hint::black_box;
use std::time::Instant;

pub fn microseconds<T>(batch: u32, mut work: impl FnMut() -> T) -> f64 {
    let start = Instant::now();
    for _ in 0..batch {
        black_box(work());
    }
    start.elapsed().as_secs_f64() * 1e6 / f64::from(batch)
}

/// How many batches there are, and how often each does the work.
const BATCHES: usize = 300;
const BATCH: u32 = 2;

/// Microseconds of each work, batches of all in turn, so that they can be held against one another.
pub fn in_turn<const N: usize>(mut works: [&mut dyn FnMut(); N]) -> [f64; N] {
    let mut best = [f64::MAX; N];
    for _ in 0..BATCHES {
        for (best, work) in best.iter_mut().zip(&mut works) {
            *best = best.min(microseconds(BATCH, work));
        }
    }
    best
}

/// The proved side and the plain one, in microseconds.
#[derive(Clone, Copy)]
pub struct Pair {
    pub proved: f64,
    pub plain: f64,
}

impl Pair {
    /// Batches of both in turn.
    pub fn timed<T, U>(mut proved: impl FnMut() -> T, mut plain: impl FnMut() -> U) -> Pair {
        let mut best = Pair {
            proved: f64::MAX,
            plain: f64::MAX,
        };
        for _ in 0..BATCHES {
            best.proved = best.proved.min(microseconds(BATCH, &mut proved));
            best.plain = best.plain.min(microseconds(BATCH, &mut plain));
        }
        best
    }

    /// Time of the proved side, and its ratio to the plain one.
    pub fn shown(self) -> String {
        format!("{:9.1}{:7.2}", self.proved, self.proved / self.plain)
    }

    /// The same, with the time of the plain side between them.
    pub fn shown_beside(self) -> String {
        let Pair { proved, plain } = self;
        format!("{proved:9.1}{plain:9.1}{:7.2}", proved / plain)
    }
}
