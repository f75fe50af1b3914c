//! What the program `linerun` writes, for any mode and fuel: the verdict line
//! and, after it, the report; and the call that a host makes for it, with lent
//! buffers. Reading standard input is left to `main.rs`.

use crate::batch::SECOND_LENGTH;
use crate::calls::{self, Mode};
use crate::refusals::{REPORT_LENGTH, Refusal, TEXT_LENGTH, WORK_LENGTH};
use crate::text::push_line;

/// The fuel `linerun` opens its session with.
pub const FUEL: u16 = 1_000;

/// So many characters of an input decide what is written: one more than the
/// longest first text with the longest second one.
pub const INPUT_LENGTH: usize = TEXT_LENGTH + SECOND_LENGTH + 1;

/// The output for an input and the fuel left.
pub fn output(mode: Mode, fuel: u16, input: &[u8]) -> (Vec<u8>, u16) {
    let (text, second) = cut(input);
    output_on(mode, fuel, text, second)
}

/// The two texts of an input: the second is all that follows the first line
/// beginning `04`, whatever it looks like.
pub fn cut(input: &[u8]) -> (&[u8], &[u8]) {
    let mut end = 0;
    for line in input.split_inclusive(|&byte| byte == b'\n') {
        end += line.len();
        if line.starts_with(b"04") {
            break;
        }
    }
    input.split_at(end)
}

/// The output for two texts and the fuel left. A checked run has a verdict line
/// first; a trial run has one only when it is refused.
pub fn output_on(mode: Mode, fuel: u16, text: &[u8], second: &[u8]) -> (Vec<u8>, u16) {
    let mut report = vec![0; REPORT_LENGTH];
    let mut work = vec![0; WORK_LENGTH];
    let session = calls::open(fuel);
    let answer = calls::run_batch(mode, text, second, session, &mut report, &mut work);
    let mut output = verdict(mode, text, answer.refusal);
    output.extend(&report[..answer.length]);
    (output, answer.session.fuel)
}

/// What a host writes: the verdict line, then so much of the report buffer.
#[derive(Clone, Debug, PartialEq, Eq)]
pub struct Shown {
    pub verdict: Vec<u8>,
    pub length: usize,
}

/// A checked run of an input with `linerun`'s fuel in lent buffers, which are
/// tested first.
pub fn show(input: &[u8], report: &mut [u8], work: &mut [u8]) -> Result<Shown, Refusal> {
    let session = calls::open(FUEL);
    if let Some(refusal) = calls::state_refusal(session, report, work) {
        return Err(refusal);
    }
    let (text, second) = cut(input);
    let answer = calls::run_batch(Mode::Checked, text, second, session, report, work);
    let verdict = verdict(Mode::Checked, text, answer.refusal);
    let length = answer.length;
    Ok(Shown { verdict, length })
}

/// The verdict line of a run that was refused or not.
fn verdict(mode: Mode, text: &[u8], refusal: Option<Refusal>) -> Vec<u8> {
    let mut line = Vec::new();
    if let Some(refusal) = refusal {
        push_line(&mut line, &[0x08, refusal.number()]);
    } else if mode == Mode::Checked
        && let Ok(main) = calls::check(text)
    {
        push_line(&mut line, &[0x08, 0x00, main.class, main.tag]);
    }
    line
}
