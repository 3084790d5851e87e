//! Instructions instead of nanoseconds. The program runs one batch of every row and side under callgrind, which counts
//! only inside the measured functions, starts from zero at `count_begin` and writes a file at `count_end` (see `run`).
//! A second run of the program makes a table of the files.

use crate::rounds::{Row, Side};
use std::fs;
use std::hint::black_box;
use std::path::Path;

/// The file that callgrind writes, without the number that it adds.
const FILE: &str = "counted";

#[inline(never)]
fn count_begin() {
    black_box(1);
}

#[inline(never)]
fn count_end() {
    black_box(2);
}

fn one(side: &mut dyn Side) {
    side.ready();
    count_begin();
    side.batch();
    count_end();
}

/// Under callgrind: one batch of each side.
pub fn run(rows: &mut [Row]) {
    for row in rows {
        one(&mut *row.library);
        one(&mut *row.other);
    }
}

/// The instructions that one of callgrind's files tells of. Its "totals" are not used: they add up what the functions
/// took by themselves, and count some instructions twice where the counting was switched on and off.
fn total(directory: &Path, number: usize) -> f64 {
    let path = directory.join(format!("{FILE}.{number}"));
    let text = fs::read_to_string(&path).unwrap_or_else(|error| panic!("{}: {error}", path.display()));
    let total = text.lines().find_map(|line| line.strip_prefix("summary: "));
    total.and_then(|digits| digits.parse().ok()).unwrap_or_else(|| panic!("no summary in {}", path.display()))
}

/// The lines of the table: for a call of each side, the instructions of a batch divided by its calls. The files are
/// numbered in the order of `run`; the result is the number of files read, `before` among them.
pub fn print(rows: &[Row], directory: &Path, before: usize) -> usize {
    for (i, row) in rows.iter().enumerate() {
        let library = total(directory, before + 2 * i + 1) / row.library.calls() as f64;
        let rust = total(directory, before + 2 * i + 2) / row.other.calls() as f64;
        println!("| {} | {library:.1} | {rust:.1} | {:.2} |", row.name, library / rust);
    }
    before + 2 * rows.len()
}
