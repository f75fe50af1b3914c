//! Runs on a second text in lent buffers full of junk, in one engine or both.

use reference::calls::{self, Answer, Mode, Session, open};
use reference::fast;
use reference::generator::batch::Batch;
use reference::refusals::{REPORT_LENGTH, WORK_LENGTH};

pub type Run = fn(Mode, &[u8], &[u8], Session, &mut [u8], &mut [u8]) -> Answer;

/// What one engine gave, with every byte of buffers that were full of junk.
#[derive(Debug, PartialEq)]
pub struct Ran {
    pub answer: Answer,
    pub report: Vec<u8>,
    work_as_promised: bool,
}

/// Two lent buffers, used again and again.
pub struct Buffers {
    report: Vec<u8>,
    work: Vec<u8>,
}

impl Buffers {
    pub fn new() -> Buffers {
        Buffers {
            report: vec![0; REPORT_LENGTH + 9],
            work: vec![0; WORK_LENGTH + 9],
        }
    }

    pub fn run(&mut self, run: Run, mode: Mode, batch: &Batch, fuel: u16) -> Ran {
        self.report.fill(0x5A);
        self.work.fill(0x5A);
        let Buffers { report, work } = self;
        let answer = run(mode, &batch.text, &batch.second, open(fuel), report, work);
        let all = |bytes: &[u8], wanted| bytes.iter().all(|&byte| byte == wanted);
        let zeroed = if answer.refusal.is_some() { 0x5A } else { 0 };
        let (front, rest) = work.split_at(WORK_LENGTH);
        Ran {
            answer,
            report: report.clone(),
            work_as_promised: all(front, zeroed)
                && all(rest, 0x5A)
                && all(&report[answer.length..], 0x5A),
        }
    }

    /// Both engines give the same.
    pub fn agreed(&mut self, mode: Mode, batch: &Batch, fuel: u16) -> Ran {
        let simple = self.run(calls::run_batch, mode, batch, fuel);
        let quick = self.run(fast::run_batch, mode, batch, fuel);
        assert_eq!(simple, quick, "{mode:?} {fuel} {}", shown(batch));
        assert!(simple.work_as_promised);
        simple
    }
}

pub fn shown(batch: &Batch) -> String {
    let text = String::from_utf8_lossy(&batch.text);
    format!("{text}{}", String::from_utf8_lossy(&batch.second))
}

/// The refusal, or the first bytes of the report.
pub fn outcome(ran: &Ran) -> String {
    match ran.answer.refusal {
        Some(refusal) => format!("refusal {}", refusal.number()),
        None => {
            let length = if ran.report[1] == b'7' { 4 } else { 2 };
            String::from_utf8_lossy(&ran.report[..length]).into_owned()
        }
    }
}
