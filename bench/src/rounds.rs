//! Rounds of timed batches.

use std::hint::black_box;
use std::time::Instant;

/// How often in a pass the two sides of a row are timed, one right after the other.
pub const ROUNDS: usize = 50;

/// A side is made ready and its batch timed until a round has about so many calls, the times added.
const CALLS: usize = 256;
/// But not more often than this.
const MOST_BATCHES: usize = 16;

/// Medians over all rounds: nanoseconds for one call, and how many times the library's is the other's in its round.
pub struct Figures {
    pub library: f64,
    pub other: f64,
    pub ratio: f64,
}

/// A side: what is made ready before a batch, untimed, and the batch.
pub trait Side {
    fn ready(&mut self);
    fn batch(&mut self);
    /// How many calls a batch has.
    fn calls(&self) -> usize;
}

/// The two sides of a line of a table.
pub struct Row {
    pub name: String,
    pub library: Box<dyn Side>,
    pub other: Box<dyn Side>,
}

fn median(mut numbers: Vec<f64>) -> f64 {
    numbers.sort_by(f64::total_cmp);
    numbers[numbers.len() / 2]
}

/// The nanoseconds that are measured where nothing is done.
fn clock() -> f64 {
    let empty = |_| {
        let start = Instant::now();
        black_box(());
        start.elapsed().as_nanos() as f64
    };
    median((0..1000).map(empty).collect())
}

/// Nanoseconds for one call, without what the clock takes.
fn timed(side: &mut dyn Side, clock: f64) -> f64 {
    let batches = (CALLS / side.calls()).min(MOST_BATCHES);
    let mut sum = 0.0;
    for _ in 0..batches {
        side.ready();
        let start = Instant::now();
        side.batch();
        sum += start.elapsed().as_nanos() as f64 - clock;
    }
    (sum / (batches * side.calls()) as f64).max(0.01)
}

/// One round; the sides take turns at being the first.
fn round(row: &mut Row, library_first: bool, clock: f64) -> (f64, f64) {
    if library_first {
        let library = timed(&mut *row.library, clock);
        (library, timed(&mut *row.other, clock))
    } else {
        let other = timed(&mut *row.other, clock);
        (timed(&mut *row.library, clock), other)
    }
}

/// The rounds of one row, pass after pass: nanoseconds of the library and of the other side.
#[derive(Clone, Default)]
pub struct Times(Vec<(f64, f64)>);

impl Times {
    /// One more pass.
    pub fn add(&mut self, row: &mut Row) {
        let clock = clock();
        self.0.extend((0..ROUNDS).map(|i| round(row, i % 2 == 0, clock)));
    }

    pub fn figures(&self) -> Figures {
        let median_of = |number: fn(&(f64, f64)) -> f64| median(self.0.iter().map(number).collect());
        Figures {
            library: median_of(|times| times.0),
            other: median_of(|times| times.1),
            ratio: median_of(|times| times.0 / times.1),
        }
    }
}
