//! Measures the library beside the Rust model of the tests, and prints tables. Every figure is of this one run: the two
//! sides are timed one right after the other, so that what else the machine does meets both. README.md says what each row
//! measures.
//!
//!     bench                 nanoseconds
//!     bench --run           one batch of each row, for callgrind to count
//!     bench --counted DIR   the table of what callgrind wrote to DIR

mod arrivals;
mod called;
mod count;
mod maps;
mod opening;
mod packing;
mod requests;
mod rounds;
mod setup;

use rounds::{Row, Times};
use std::env;
use std::hint::black_box;
use std::path::Path;
use std::process::ExitCode;
use tollgutter_tests::{ffi, model};

struct Table {
    name: &'static str,
    /// What stands beside the library.
    other: &'static str,
    rows: Vec<Row>,
}

/// The tables that have the Rust model on the other side.
fn beside_rust() -> Vec<Table> {
    vec![
        Table { name: "request, 8 buffers", other: "Rust", rows: requests::all() },
        Table { name: "request, by buffers", other: "Rust", rows: requests::by_buffers() },
        Table { name: "request, by sizes", other: "Rust", rows: requests::by_sizes() },
        Table { name: "arrival decision, 8 buffers", other: "Rust", rows: arrivals::decisions() },
        Table { name: "map, 8 buffers", other: "Rust", rows: maps::all() },
        Table { name: "opening", other: "Rust", rows: opening::all() },
        Table { name: "packing", other: "Rust", rows: packing::all() },
    ]
}

fn heading(table: &Table, unit: &str) {
    println!("\n| {} | library, {unit} | {}, {unit} | ratio |", table.name, table.other);
    println!("|---|---|---|---|");
}

/// How often all rows are gone through, so that what else the machine does for a while meets them all.
const PASSES: usize = 40;

fn all_tables() -> Vec<Table> {
    let mut tables = beside_rust();
    tables.push(Table { name: "stored frame", other: "memcpy", rows: arrivals::frames() });
    tables
}

/// One pass over all rows, table after table, with devices of its own.
fn time_pass(times: &mut Vec<Times>) {
    let mut tables = all_tables();
    let rows: Vec<&mut Row> = tables.iter_mut().flat_map(|table| &mut table.rows).collect();
    times.resize(rows.len(), Times::default());
    for (row, times) in rows.into_iter().zip(times) {
        times.add(row);
    }
}

/// A pass with the heap and the stack moved on by so many steps: where things lie makes a difference, and no place of a
/// run is to stand for all.
#[inline(never)]
fn moved_pass(steps: usize, times: &mut Vec<Times>) {
    let room = black_box(([0u8; 136], vec![0u8; 1000]));
    match steps {
        0 => time_pass(times),
        _ => moved_pass(steps - 1, times),
    }
    black_box(&room);
}

fn time_all() {
    let rounds = PASSES * rounds::ROUNDS;
    println!("Medians of {rounds} rounds. A round times both sides; the ratio is the median of the rounds' ratios.");
    let mut times = Vec::new();
    for pass in 0..PASSES {
        moved_pass(pass, &mut times);
    }
    let mut figures = times.iter().map(Times::figures);
    for table in all_tables() {
        heading(&table, "ns");
        for (row, figures) in table.rows.iter().zip(&mut figures) {
            println!("| {} | {:.1} | {:.1} | {:.2} |", row.name, figures.library, figures.other, figures.ratio);
        }
    }
    println!(
        "\nA device takes {} bytes in the library and {} in Rust.",
        size_of::<ffi::Device>(),
        size_of::<model::Device>()
    );
}

fn count_all() {
    for mut table in beside_rust() {
        count::run(&mut table.rows);
    }
}

fn print_counted(directory: &Path) {
    println!("Instructions of one call, counted by callgrind from entering the function to leaving it.");
    let mut read = 0;
    for table in beside_rust() {
        heading(&table, "instructions");
        read = count::print(&table.rows, directory, read);
    }
}

fn main() -> ExitCode {
    let arguments: Vec<String> = env::args().skip(1).collect();
    match arguments.iter().map(String::as_str).collect::<Vec<_>>()[..] {
        [] => time_all(),
        ["--run"] => count_all(),
        ["--counted", directory] => print_counted(Path::new(directory)),
        _ => {
            eprintln!("bench [--run | --counted DIR]");
            return ExitCode::from(2);
        }
    }
    ExitCode::SUCCESS
}
