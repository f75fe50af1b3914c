//! The call that shows what `linerun` writes, in each engine on equal buffers: the answers and every byte are compared.

use baqolluy::{REPORT_LENGTH, Shown, VERDICT_LENGTH, WORK_LENGTH};
use reference::linerun;

/// What both buffers are full of before, and what stays.
const REPORT_JUNK: u8 = 0x5A;
const WORK_JUNK: u8 = 0xA5;

/// What both engines gave, in buffers that are just long enough: the verdict line and the report. Panics where they differ.
pub fn output(input: &[u8]) -> String {
    let (shown, report) = show(input, REPORT_LENGTH, WORK_LENGTH);
    let verdict = &shown.verdict[..usize::from(shown.verdict_length)];
    let both = [verdict, &report[..usize::from(shown.length)]].concat();
    String::from_utf8(both).expect("characters")
}

/// The proved engine's answer and report buffer, in lent buffers of these lengths. Panics where the engines differ.
pub fn show(input: &[u8], report: usize, work: usize) -> (Shown, Vec<u8>) {
    let lent = || (vec![REPORT_JUNK; report], vec![WORK_JUNK; work]);
    let (mut report, mut work) = lent();
    let shown = baqolluy::show(input, &mut report, &mut work);
    let (mut other_report, mut other_work) = lent();
    let expected = expected(input, &mut other_report, &mut other_work);
    let text = || String::from_utf8_lossy(input);
    assert_eq!(shown, expected, "{}", text());
    assert!(report == other_report, "report of {}", text());
    assert!(work == other_work, "work of {}", text());
    (shown, report)
}

/// The reference engine's answer in the words of the proved one.
fn expected(input: &[u8], report: &mut [u8], work: &mut [u8]) -> Shown {
    let mut shown = Shown {
        refusal: 0,
        verdict_length: 0,
        verdict: [0; VERDICT_LENGTH],
        length: 0,
    };
    match linerun::show(input, report, work) {
        Err(refusal) => shown.refusal = refusal.number(),
        Ok(linerun::Shown { verdict, length }) => {
            shown.verdict_length = verdict.len() as u8;
            shown.verdict[..verdict.len()].copy_from_slice(&verdict);
            shown.length = length as u16;
        }
    }
    shown
}
