//! Times the library on 1,048,576 numbers beside the reference walk, heap
//! merges with counting and a sort with counting, a check of the walk's own
//! certificate beside the query, many questions in one call beside as many calls,
//! the same with as many zeros before the bins beside the bins alone, queries and
//! checks by weight beside those without weights, what the first run holds alone
//! beside a query of the other runs, and what both of two runs hold beside a query of
//! them and a merge; and on tracefiles of 100,000,000 bytes beside the same reader in
//! Rust.
//!
//!     cargo run --release -p bench -- [--only SUBSTRING] [--reps N] [--help]
//!
//! Standard output has the tables alone; `--help` tells their columns.

#![forbid(unsafe_code)]

mod alone;
mod baselines;
mod cases;
mod checking;
mod inputs;
mod lcov;
mod many;
mod options;
mod ordered;
mod pairing;
mod partition;
mod querying;
mod reading;
mod row;
mod tracefiles;
mod weighing;
mod zeros;

use inputs::NUMBERS;
use options::{Request, HELP, USAGE};
use std::hint::black_box;
use std::process::ExitCode;
use std::time::{Duration, Instant};
use tracefiles::BYTES;

fn main() -> ExitCode {
    let words = std::env::args_os().skip(1);
    let options = match options::read(words.map(|word| word.to_string_lossy().into_owned())) {
        Ok(Request::Help) => {
            print!("{USAGE}\n{HELP}");
            return ExitCode::SUCCESS;
        }
        Ok(Request::Measure(options)) => options,
        Err(error) => {
            eprintln!("bench: {error}\n{USAGE}");
            return ExitCode::from(2);
        }
    };
    let selected = match cases::select(&options.only) {
        Ok(selected) => selected,
        Err(error) => {
            eprintln!("bench: {error}");
            return ExitCode::from(2);
        }
    };
    let repetitions = options.repetitions;
    eprintln!(
        "{NUMBERS} numbers, tracefiles of {BYTES} bytes, medians of {repetitions} repetitions"
    );
    let mut tables = Tables::default();
    tables.print(&selected.queried, repetitions, querying::report);
    tables.print(&selected.checked, repetitions, checking::report);
    tables.print(&selected.asked_together, repetitions, many::report);
    tables.print(&selected.half_zeros, repetitions, zeros::report);
    tables.print(&selected.weighted, repetitions, weighing::report);
    tables.print(&selected.alone, repetitions, alone::report);
    tables.print(&selected.pairs, repetitions, pairing::report);
    tables.print(&selected.read, repetitions, reading::report);
    ExitCode::SUCCESS
}

/// The tables that have cases, with an empty line between.
#[derive(Default)]
struct Tables {
    printed: bool,
}

impl Tables {
    fn print<C>(&mut self, cases: &[C], repetitions: usize, report: fn(&[C], usize)) {
        if cases.is_empty() {
            return;
        }
        if self.printed {
            println!();
        }
        report(cases, repetitions);
        self.printed = true;
    }
}

/// Times some work on an input that was just read, so that none of the ways has
/// to fetch it for the others.
fn timed<N: Copy + Into<u32>, T>(input: &[N], work: impl FnOnce() -> T) -> (Duration, T) {
    black_box(
        input
            .iter()
            .fold(0, |sum: u32, &x| sum.wrapping_add(x.into())),
    );
    let start = Instant::now();
    let result = black_box(work());
    (start.elapsed(), result)
}

fn median(mut times: Vec<Duration>) -> Duration {
    times.sort_unstable();
    times[times.len() / 2]
}
