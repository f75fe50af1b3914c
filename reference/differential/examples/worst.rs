//! A search for slow texts: 21 new objects in a body over parts that are copies of one graph (reference::workloads::parts).
//!
//!     cargo run --release --offline --example worst                      all texts, at fuel 1,000
//!     cargo run --release --offline --example worst EVERY [FUEL]         every so-manieth of them, at this fuel
//!     cargo run --release --offline --example worst text NUMBER          one text, to keep
//!
//! Prints the slowest by the unit of fuel, each with its time by the fast mode's. Any difference in refusal, fuel left or
//! report from the reference engine makes it fail: the fast mode at that fuel, the simple mode where it runs out soon.

#[path = "bench/clock.rs"]
mod clock;

use baqolluy::{REPORT_LENGTH, WORK_LENGTH};
use clock::now;
use reference::calls::{self, Mode};
use reference::fast;
use reference::refusals::Refusal;
use reference::workloads::parts::{Parts, Shape, Word};
use std::io::Write;
use std::process::ExitCode;
use std::time::Duration;

/// Fuel for the simple mode: the parts are made, and some 20 bodies run.
const LITTLE: u16 = 120;
const SHOWN: usize = 20;

/// What a run gave: refusal, fuel left, report.
type Ran = (u8, u16, Vec<u8>);

struct Timed {
    number: usize,
    parts: Parts,
    spent: u16,
    proved: Duration,
    fast: Duration,
}

fn main() -> ExitCode {
    let arguments: Vec<String> = std::env::args().skip(1).collect();
    let words: Vec<&str> = arguments.iter().map(String::as_str).collect();
    let numbers: Vec<usize> = words.iter().flat_map(|word| word.parse()).collect();
    match (&words[..], &numbers[..]) {
        (["text", _], &[number]) if number < families().len() => {
            let (_, text) = families().swap_remove(number);
            std::io::stdout().write_all(&text).expect("standard output");
            ExitCode::SUCCESS
        }
        ([], []) => search(1, 1_000),
        ([_], &[every]) if every > 0 => search(every, 1_000),
        ([_, _], &[every, fuel @ 1..=65_535]) if every > 0 => search(every, fuel as u16),
        _ => {
            eprintln!("usage: worst [EVERY [FUEL]] | worst text NUMBER");
            ExitCode::from(2)
        }
    }
}

/// Every text that the parts have.
fn families() -> Vec<(Parts, Vec<u8>)> {
    let mut all = Vec::new();
    for shape in [Shape::Ring, Shape::Chain, Shape::Loops] {
        for word in [Word::Odd, Word::Balanced, Word::Alike] {
            for objects in [1, 4, 8, 13, 18, 24, 27] {
                for turn in turns(word, objects) {
                    for beside in [0, (31 - objects) / 2, 31 - objects] {
                        for count in 2..=4 {
                            all.push(Parts {
                                shape,
                                word,
                                objects,
                                turn,
                                beside,
                                count,
                            });
                        }
                    }
                }
            }
        }
    }
    let loops = |parts: &Parts| parts.shape == Shape::Loops;
    all.retain(|parts| !loops(parts) || parts.objects <= 14);
    all.extend(pairs());
    let texts = all
        .into_iter()
        .map(|parts| parts.text().map(|text| (parts, text)));
    texts.flatten().collect()
}

/// Chains of pairs: so many that copies of them, turned, are not too large together.
fn pairs() -> Vec<Parts> {
    let mut all = Vec::new();
    for objects in [4, 6, 7, 8, 10] {
        let room = 31 - 2 * objects;
        for turn in [1, objects / 2, objects - 1] {
            for beside in [0, room / 3, room / 2, room] {
                for count in 2..=4 {
                    all.push(Parts {
                        shape: Shape::Pairs,
                        word: Word::Odd,
                        objects,
                        turn,
                        beside,
                        count,
                    });
                }
            }
        }
    }
    all
}

/// Turns that give different words.
fn turns(word: Word, objects: usize) -> Vec<usize> {
    let last = if word == Word::Alike { 1 } else { objects };
    let mut turns = vec![0, 1, 2, objects / 2];
    turns.retain(|&turn| turn < last);
    turns.sort_unstable();
    turns.dedup();
    turns
}

fn search(every: usize, fuel: u16) -> ExitCode {
    let mut timed = Vec::new();
    let (mut texts, mut differences) = (0, 0);
    for (number, (parts, text)) in families().into_iter().enumerate().step_by(every) {
        texts += 1;
        let (ours, proved) = proved(&text, fuel);
        let (theirs, fast) = reference(fast::run, &text, fuel);
        let (ours_soon, _) = self::proved(&text, LITTLE);
        let (simple, _) = reference(calls::run, &text, LITTLE);
        for (ours, theirs) in [(&ours, &theirs), (&ours_soon, &simple)] {
            if ours != theirs {
                differences += 1;
                println!("number {number}, {parts}: proved {ours:?}, reference {theirs:?}");
            }
        }
        timed.push(Timed {
            number,
            parts,
            spent: fuel - ours.1,
            proved,
            fast,
        });
    }
    print(timed, fuel);
    println!("texts {texts}, differences {differences}");
    if differences == 0 {
        ExitCode::SUCCESS
    } else {
        ExitCode::FAILURE
    }
}

fn proved(text: &[u8], fuel: u16) -> (Ran, Duration) {
    let (mut report, mut work) = (vec![0; REPORT_LENGTH], vec![0; WORK_LENGTH]);
    let start = now();
    let answer = baqolluy::run(text, b"", baqolluy::open(fuel), &mut report, &mut work);
    let taken = now() - start;
    report.truncate(usize::from(answer.length));
    ((answer.refusal, answer.session.fuel, report), taken)
}

/// A mode of the reference engine.
type Run = fn(Mode, &[u8], calls::Session, &mut [u8], &mut [u8]) -> calls::Answer;

fn reference(run: Run, text: &[u8], fuel: u16) -> (Ran, Duration) {
    let (mut report, mut work) = (vec![0; REPORT_LENGTH], vec![0; WORK_LENGTH]);
    let start = now();
    let answer = run(
        Mode::Checked,
        text,
        calls::open(fuel),
        &mut report,
        &mut work,
    );
    let taken = now() - start;
    report.truncate(answer.length);
    let refusal = answer.refusal.map_or(0, Refusal::number);
    ((refusal, answer.session.fuel, report), taken)
}

/// Runs that end before half of the fuel is spent show what reading costs, and are left out.
fn print(mut timed: Vec<Timed>, fuel: u16) {
    let whole = timed.len();
    timed.retain(|one| one.spent >= fuel / 2);
    println!(
        "{} of {whole} texts spend half of {fuel} units or more",
        timed.len()
    );
    let each = |one: &Timed| one.proved.as_secs_f64() * 1e6 / f64::from(one.spent);
    timed.sort_by(|one, two| each(two).total_cmp(&each(one)));
    println!("number   us/unit     ms  proved/fast  spent  parts");
    for one in timed.iter().take(SHOWN) {
        println!(
            "{:>6}{:>10.2}{:>7.0}{:>13.1}{:>7}  {}",
            one.number,
            each(one),
            one.proved.as_secs_f64() * 1e3,
            one.proved.as_secs_f64() / one.fast.as_secs_f64(),
            one.spent,
            one.parts
        );
    }
}
