//! How fast the engines are: the proved one, the reference's fast mode and its
//! simple mode, on the same inputs in one run.
//!
//!     cargo run --release --offline --example bench            the tables
//!     cargo run --release --offline --example bench like WORD  rows with this in their names
//!     cargo run --release --offline --example bench rows       names of the rows
//!     cargo run --release --offline --example bench one ROW ENGINE N
//!
//! The last does one row N times, for counting instructions (`callgrind.sh`).
//! All engines must agree on a row, byte for byte, before it is timed.

mod clock;
mod engines;
mod proved;
mod tables;
mod timing;

use engines::{Buffers, ENGINES, Engine};
use reference::workloads::{self, Ending, Workload};
use std::process::ExitCode;

fn main() -> ExitCode {
    let arguments: Vec<String> = std::env::args().skip(1).collect();
    let words: Vec<&str> = arguments.iter().map(String::as_str).collect();
    match command(&words) {
        Some(()) => ExitCode::SUCCESS,
        None => {
            eprintln!(
                "usage: bench | bench like WORD | bench rows | bench one ROW proved|fast|simple N"
            );
            ExitCode::from(2)
        }
    }
}

fn command(words: &[&str]) -> Option<()> {
    match words {
        [] => tables::print(),
        ["like", word] => tables::print_rows(word),
        ["rows"] => {
            for (number, row) in workloads::all().iter().enumerate() {
                println!("{number}\t{}\t{}", row.spends, row.name);
            }
        }
        ["one", row, engine, times] => {
            let row = workloads::all().into_iter().nth(row.parse().ok()?)?;
            let engine = ENGINES.into_iter().find(|one| one.name() == *engine)?;
            repeat(&row, engine, times.parse().ok()?);
        }
        _ => return None,
    }
    Some(())
}

/// Does a row so many times and nothing else.
fn repeat(row: &Workload, engine: Engine, times: usize) {
    let mut buffers = Buffers::new();
    let refusal = match row.ending {
        Ending::Refused(number) => number,
        _ => 0,
    };
    for _ in 0..times {
        let answer = engine.call(row, &mut buffers);
        assert_eq!(answer.refusal, refusal, "{}", row.name);
    }
}
