//! How generated programs compare in time: the proved engine's trial run by the fast mode's, whole calls at fuel 1,000.
//!
//!     cargo run --release --offline --example ratios SEED COUNT          programs of the mixture
//!     cargo run --release --offline --example ratios SEED COUNT rings    programs that put rings together
//!
//! Texts that are refused are left out. A time is the least of a few in turn, so that what else the machine does counts
//! little. Any difference in fuel left or report makes it fail.

#[path = "bench/clock.rs"]
mod clock;

use baqolluy::{REPORT_LENGTH, WORK_LENGTH};
use clock::now;
use differential::sample;
use reference::calls::{self, Mode};
use reference::fast;
use reference::refusals::Refusal;
use std::process::ExitCode;
use std::time::Duration;

const FUEL: u16 = 1_000;
const TIMES: usize = 5;

/// What a run gave: refusal, fuel left, report.
type Ran = (u8, u16, Vec<u8>);

fn main() -> ExitCode {
    let words: Vec<String> = std::env::args().skip(1).collect();
    let numbers: Vec<u64> = words.iter().flat_map(|word| word.parse()).collect();
    let rings = match words.iter().map(String::as_str).collect::<Vec<_>>()[..] {
        [_, _] => false,
        [_, _, "rings"] => true,
        _ => return usage(),
    };
    let [seed, count] = numbers[..] else {
        return usage();
    };
    let text = |number| match rings {
        true => sample::rings(seed, number).0.text(),
        false => sample::mixed(seed, number).0,
    };
    let ratios: Option<Vec<f64>> = (0..count).map(text).flat_map(|text| ratio(&text)).collect();
    match ratios {
        Some(ratios) => print(ratios),
        None => ExitCode::FAILURE,
    }
}

fn usage() -> ExitCode {
    eprintln!("usage: ratios SEED COUNT [rings]");
    ExitCode::from(2)
}

/// The ratio for one text; nothing for a text that is refused, and none inside where the engines differ.
fn ratio(text: &[u8]) -> Option<Option<f64>> {
    let (mut proved, mut fast) = (Duration::MAX, Duration::MAX);
    for _ in 0..TIMES {
        let (ours, taken) = run_proved(text);
        proved = proved.min(taken);
        let (theirs, taken) = run_fast(text);
        fast = fast.min(taken);
        if ours != theirs {
            println!("proved {ours:?}, fast {theirs:?}: {}", shown(text));
            return Some(None);
        }
        if ours.0 != 0 {
            return None;
        }
    }
    Some(Some(proved.as_secs_f64() / fast.as_secs_f64()))
}

fn shown(text: &[u8]) -> String {
    String::from_utf8_lossy(text).replace('\n', "/")
}

fn run_proved(text: &[u8]) -> (Ran, Duration) {
    let (mut report, mut work) = (vec![0; REPORT_LENGTH], vec![0; WORK_LENGTH]);
    let start = now();
    let answer = baqolluy::trial(text, b"", baqolluy::open(FUEL), &mut report, &mut work);
    let taken = now() - start;
    report.truncate(usize::from(answer.length));
    ((answer.refusal, answer.session.fuel, report), taken)
}

fn run_fast(text: &[u8]) -> (Ran, Duration) {
    let (mut report, mut work) = (vec![0; REPORT_LENGTH], vec![0; WORK_LENGTH]);
    let start = now();
    let answer = fast::run(Mode::Trial, text, calls::open(FUEL), &mut report, &mut work);
    let taken = now() - start;
    report.truncate(answer.length);
    let refusal = answer.refusal.map_or(0, Refusal::number);
    ((refusal, answer.session.fuel, report), taken)
}

fn print(mut ratios: Vec<f64>) -> ExitCode {
    ratios.sort_by(f64::total_cmp);
    let Some(&worst) = ratios.last() else {
        println!("no text was accepted");
        return ExitCode::FAILURE;
    };
    let at = |share: f64| ratios[((ratios.len() - 1) as f64 * share) as usize];
    println!(
        "{} programs, proved / fast: median {:.2}, 99 of 100 within {:.2}, 999 of 1,000 within {:.2}, worst {worst:.2}",
        ratios.len(),
        at(0.5),
        at(0.99),
        at(0.999)
    );
    ExitCode::SUCCESS
}
