//! The three engines behind one call, and lent buffers. Every run zeroes its
//! work buffer itself, as document 01 asks; nothing is cleared between runs.

use crate::proved;
use reference::calls;
use reference::fast;
use reference::refusals::{REPORT_LENGTH, Refusal, WORK_LENGTH};
use reference::syntax::Type;
use reference::workloads::{Call, Workload};

#[derive(Clone, Copy, Debug, PartialEq, Eq)]
pub enum Engine {
    Proved,
    Fast,
    Simple,
}

pub const ENGINES: [Engine; 3] = [Engine::Proved, Engine::Fast, Engine::Simple];

pub struct Buffers {
    pub report: Vec<u8>,
    pub work: Vec<u8>,
}

impl Buffers {
    pub fn new() -> Buffers {
        Buffers {
            report: vec![0xA5; REPORT_LENGTH],
            work: vec![0xA5; WORK_LENGTH],
        }
    }
}

/// What a call gives back, in the same form for all: a run has no type, a
/// check has neither fuel nor a report.
#[derive(Clone, Copy, Debug, Default, PartialEq, Eq)]
pub struct Answer {
    pub refusal: u8,
    pub main: Option<(u8, u8)>,
    pub fuel: u16,
    pub length: usize,
}

impl Engine {
    pub fn name(self) -> &'static str {
        match self {
            Engine::Proved => "proved",
            Engine::Fast => "fast",
            Engine::Simple => "simple",
        }
    }

    /// Does what the workload asks, once.
    pub fn call(self, workload: &Workload, buffers: &mut Buffers) -> Answer {
        let text = &workload.text;
        let input = &workload.second;
        let session = calls::open(workload.fuel);
        let Buffers { report, work } = buffers;
        match (self, workload.call) {
            (Engine::Proved, Call::Check) => {
                let verdict = proved::check(text);
                Answer {
                    refusal: verdict.refusal,
                    main: Some((verdict.class, verdict.tag)),
                    ..Answer::default()
                }
            }
            (Engine::Proved, Call::Run(mode)) => {
                let answer = proved::run(mode, text, input, workload.fuel, report, work);
                Answer {
                    refusal: answer.refusal,
                    main: None,
                    fuel: answer.session.fuel,
                    length: usize::from(answer.length),
                }
            }
            (Engine::Fast, Call::Check) => verdict(fast::check(text)),
            (Engine::Simple, Call::Check) => verdict(calls::check(text)),
            (Engine::Fast, Call::Run(mode)) => {
                answer(fast::run_batch(mode, text, input, session, report, work))
            }
            (Engine::Simple, Call::Run(mode)) => {
                answer(calls::run_batch(mode, text, input, session, report, work))
            }
        }
    }
}

fn verdict(checked: Result<Type, Refusal>) -> Answer {
    Answer {
        refusal: checked.err().map_or(0, Refusal::number),
        main: Some(checked.map_or((0, 0), |main| (main.class, main.tag))),
        ..Answer::default()
    }
}

fn answer(answer: calls::Answer) -> Answer {
    Answer {
        refusal: answer.refusal.map_or(0, Refusal::number),
        main: None,
        fuel: answer.session.fuel,
        length: answer.length,
    }
}

/// Panics unless all engines give the same answer, spend what the row says
/// and leave the same bytes in both buffers.
pub fn assert_agreed(workload: &Workload) {
    let results = ENGINES.map(|engine| {
        let mut buffers = Buffers::new();
        let answer = engine.call(workload, &mut buffers);
        (answer, buffers.report, buffers.work)
    });
    let name = &workload.name;
    let (answer, ..) = results[2];
    for (engine, result) in ENGINES.iter().zip(&results) {
        assert_eq!(result.0, answer, "{name}: {engine:?}");
        assert!(result.1 == results[2].1, "{name}: {engine:?}, report");
        assert!(result.2 == results[2].2, "{name}: {engine:?}, work");
    }
    if answer.main.is_none() {
        let spent = usize::from(workload.fuel - answer.fuel);
        assert_eq!(spent, workload.spends, "{name}");
    }
}
