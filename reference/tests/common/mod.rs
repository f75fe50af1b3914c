//! Helpers the test files share.
#![allow(dead_code)] // each test file uses only some of them

pub mod lent;

use reference::calls::{self, Mode};
use reference::refusals::{REPORT_LENGTH, Refusal, WORK_LENGTH};
use reference::{fast, linerun};

/// The output of a checked run and the fuel left.
pub fn checked(fuel: u16, text: &[u8]) -> (String, u16) {
    run(Mode::Checked, fuel, text)
}

/// The output of a trial run and the fuel left.
pub fn trial(fuel: u16, text: &[u8]) -> (String, u16) {
    run(Mode::Trial, fuel, text)
}

/// What `linerun` does with an input, and the fuel left.
fn run(mode: Mode, fuel: u16, input: &[u8]) -> (String, u16) {
    let (text, second) = linerun::cut(input);
    run_on(mode, fuel, text, second)
}

/// The same for two texts. Every program that a test runs is run by the fast
/// mode too.
pub fn run_on(mode: Mode, fuel: u16, text: &[u8], second: &[u8]) -> (String, u16) {
    let (output, left) = linerun::output_on(mode, fuel, text, second);
    let output = String::from_utf8(output).unwrap();
    let mut report = vec![0; REPORT_LENGTH];
    let mut work = vec![0; WORK_LENGTH];
    let session = calls::open(fuel);
    let answer = fast::run_batch(mode, text, second, session, &mut report, &mut work);
    assert_eq!(answer.session.fuel, left);
    let verdict = match (answer.refusal, mode, fast::check(text)) {
        (Some(refusal), ..) => format!("08{:02X}\n", refusal.number()),
        (None, Mode::Checked, main) => {
            let main = main.unwrap();
            format!("0800{:02X}{:02X}\n", main.class, main.tag)
        }
        (None, Mode::Trial, _) => String::new(),
    };
    let report = String::from_utf8_lossy(&report[..answer.length]);
    assert_eq!(output, format!("{verdict}{report}"));
    (output, left)
}

/// Lines as they stand in a text: each ended by an LF. Spaces are for the
/// eye of whoever reads the test and are left out.
pub fn lines(lines: &[&str]) -> String {
    let line = |line: &&str| format!("{}\n", line.replace(' ', ""));
    lines.iter().map(line).collect()
}

/// Lines parted by `/`, each ended by an LF; nothing for nothing.
pub fn slashed(lines: &str) -> String {
    lines.replace('/', "\n")
}

/// Both modes and both engines give this refusal and change nothing.
pub fn refuses(program: &str, second: &str, refusal: Refusal) {
    let (program, second) = (slashed(program), slashed(second));
    let line = format!("08{:02X}\n", refusal.number());
    for mode in [Mode::Checked, Mode::Trial] {
        let ran = run_on(mode, 9, program.as_bytes(), second.as_bytes());
        assert_eq!(ran, (line.clone(), 9), "{mode:?} {program}{second}");
    }
}

/// Both modes give this report, and nothing is spent.
pub fn reports(program: &str, second: &str, report: &str) {
    let (program, second) = (slashed(program), slashed(second));
    let run = |mode| run_on(mode, 9, program.as_bytes(), second.as_bytes());
    let (checked, left) = run(Mode::Checked);
    let (verdict, checked) = checked.split_at("08000100/".len());
    assert!(verdict.starts_with("0800"), "{program}{second}{verdict}");
    assert_eq!((checked, left), (slashed(report).as_str(), 9));
    assert_eq!(run(Mode::Trial), (slashed(report), 9));
}
