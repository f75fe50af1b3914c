//! The commands: `run`, `stats`, `rows` and `emit`. Each reads its arguments
//! or standard input and prints; the work is done in the library. What `emit`
//! prints is an input of `run`, with its second text if it has one.

use reference::calls::Mode;
use reference::generator::random::Random;
use reference::generator::{self, Kind, batch, rows, stats};
use reference::linerun;
use std::io::{self, Read, Write};
use std::process::ExitCode;

const USAGE: &str = "usage: reference run < TEXT
       reference stats SEED COUNT
       reference rows SEED COUNT [batch|find]
       reference emit typed|plain|limits|illtyped|damaged|full|large|rings|chains|overrides SEED
       reference emit batch fitting|rings|pairs|limits|illtyped|damaged|flawed SEED";

fn main() -> ExitCode {
    let arguments: Vec<String> = std::env::args().skip(1).collect();
    let words: Vec<&str> = arguments.iter().map(String::as_str).collect();
    match command(&words) {
        Some(Ok(())) => ExitCode::SUCCESS,
        Some(Err(error)) => {
            eprintln!("{error}");
            ExitCode::FAILURE
        }
        None => {
            eprintln!("{USAGE}");
            ExitCode::from(2)
        }
    }
}

/// Does what the words ask, or nothing when they ask for no command.
fn command(words: &[&str]) -> Option<io::Result<()>> {
    match words {
        ["run"] => Some(run()),
        ["stats", seed, count] => {
            let table = stats::stats(seed.parse().ok()?, count.parse().ok()?);
            Some(io::stdout().write_all(table.as_bytes()))
        }
        ["rows", seed, count] => Some(print_rows(
            seed.parse().ok()?,
            count.parse().ok()?,
            rows::row,
        )),
        ["rows", seed, count, "batch"] => Some(print_rows(
            seed.parse().ok()?,
            count.parse().ok()?,
            rows::batch_row,
        )),
        ["rows", seed, count, "find"] => Some(print_rows(
            seed.parse().ok()?,
            count.parse().ok()?,
            rows::find_row,
        )),
        ["emit", "batch", kind, seed] => {
            let mut random = Random::new(seed.parse().ok()?);
            let batch = batch::draw(batch::Kind::named(kind)?, &mut random);
            let both = [batch.text, batch.second].concat();
            Some(io::stdout().write_all(&both))
        }
        ["emit", kind, seed] => {
            let mut random = Random::new(seed.parse().ok()?);
            let text = generator::text(Kind::named(kind)?, &mut random);
            Some(io::stdout().write_all(&text))
        }
        _ => None,
    }
}

fn print_rows(seed: u64, count: u64, row: fn(u64, u64) -> String) -> io::Result<()> {
    let mut output = io::BufWriter::new(io::stdout().lock());
    for number in 0..count {
        output.write_all(row(seed, number).as_bytes())?;
    }
    output.flush()
}

/// Document 01's `linerun`.
fn run() -> io::Result<()> {
    let mut input = Vec::new();
    // What comes after that changes nothing.
    io::stdin()
        .take(linerun::INPUT_LENGTH as u64)
        .read_to_end(&mut input)?;
    let (output, _) = linerun::output(Mode::Checked, linerun::FUEL, &input);
    io::stdout().write_all(&output)
}
