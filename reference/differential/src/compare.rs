//! One call to each engine on equal input and equal buffers: every part of the answers and every byte is compared. What
//! is compared comes from `sample.rs` or a test; what came out is counted in `tally.rs`.

use crate::tally::Tally;
use baqolluy::{Answer, Closing, REPORT_LENGTH, Session, Verdict, WORK_LENGTH};
use reference::calls::{self, Mode};
use reference::generator::random::Random;
use reference::refusals::Refusal;

/// How much longer than needed a buffer may be, and how much of it is never lent.
pub const EXTRA: usize = 300;
const FENCE: usize = 64;
/// Junk is taken from one pool at a place of its own each time.
const PLACES: usize = 4_096;

/// Where the engines differ: the call, both answers, the text.
pub type Difference = String;

/// What both engines gave.
pub struct Ran<'a> {
    pub answer: Answer,
    pub report: &'a [u8],
}

/// The two buffers of a run. They are longer than what is lent, so that a byte written beyond that is seen.
#[derive(PartialEq)]
struct Buffers {
    report: Vec<u8>,
    work: Vec<u8>,
}

impl Buffers {
    fn new() -> Buffers {
        Buffers {
            report: vec![0; REPORT_LENGTH + EXTRA + FENCE],
            work: vec![0; WORK_LENGTH + EXTRA + FENCE],
        }
    }

    fn fill(&mut self, junk: &[u8]) {
        let (report, work) = (self.report.len(), self.work.len());
        self.report.copy_from_slice(&junk[..report]);
        self.work.copy_from_slice(&junk[report..report + work]);
    }
}

/// Both engines, with buffers of their own.
pub struct Bench {
    random: Random,
    junk: Vec<u8>,
    proved: Buffers,
    reference: Buffers,
}

impl Bench {
    pub fn new(seed: u64) -> Bench {
        let mut random = Random::new(seed);
        let (proved, reference) = (Buffers::new(), Buffers::new());
        let length = proved.report.len() + proved.work.len() + PLACES;
        let junk = (0..length).map(|_| random.byte()).collect();
        Bench {
            random,
            junk,
            proved,
            reference,
        }
    }

    /// One run without a second text, in buffers of the given lengths, report and work.
    pub fn run(
        &mut self,
        mode: Mode,
        text: &[u8],
        session: Session,
        lengths: (usize, usize),
    ) -> Result<Ran<'_>, Difference> {
        self.run_on(mode, (text, b""), session, lengths)
    }

    /// One run of both texts in buffers of the given lengths, report and work, filled with junk.
    pub fn run_on(
        &mut self,
        mode: Mode,
        (text, input): (&[u8], &[u8]),
        session: Session,
        (report, work): (usize, usize),
    ) -> Result<Ran<'_>, Difference> {
        let junk = &self.junk[self.random.below(PLACES)..];
        self.proved.fill(junk);
        self.reference.fill(junk);
        let proved = match mode {
            Mode::Checked => baqolluy::run,
            Mode::Trial => baqolluy::trial,
        };
        let (ours, theirs) = (&mut self.proved, &mut self.reference);
        let answer = proved(
            text,
            input,
            session,
            &mut ours.report[..report],
            &mut ours.work[..work],
        );
        let expected = calls::run_batch(
            mode,
            text,
            input,
            reference_session(session),
            &mut theirs.report[..report],
            &mut theirs.work[..work],
        );
        let expected = as_answer(expected);
        if answer != expected || self.proved != self.reference {
            let call = format!("{mode:?} {session:?} report {report} work {work}");
            return Err(self.difference(&call, &[text, input].concat(), answer, expected));
        }
        let report = &self.proved.report[..usize::from(answer.length)];
        Ok(Ran { answer, report })
    }

    /// A run without a second text in buffers that are long enough.
    pub fn run_anyhow(
        &mut self,
        mode: Mode,
        text: &[u8],
        session: Session,
    ) -> Result<Ran<'_>, Difference> {
        self.run_on_anyhow(mode, (text, b""), session)
    }

    /// A run of both texts in buffers that are long enough, by a random number of bytes too long.
    pub fn run_on_anyhow(
        &mut self,
        mode: Mode,
        texts: (&[u8], &[u8]),
        session: Session,
    ) -> Result<Ran<'_>, Difference> {
        let report = REPORT_LENGTH + self.random.below(EXTRA + 1);
        let work = WORK_LENGTH + self.random.below(EXTRA + 1);
        self.run_on(mode, texts, session, (report, work))
    }

    /// The verdict on a text, and a run in each mode with each fuel.
    pub fn program(
        &mut self,
        text: &[u8],
        fuels: &[u16],
        tally: &mut Tally,
    ) -> Result<(), Difference> {
        self.program_on((text, b""), fuels, tally)
    }

    /// The same with a second text.
    pub fn program_on(
        &mut self,
        texts: (&[u8], &[u8]),
        fuels: &[u16],
        tally: &mut Tally,
    ) -> Result<(), Difference> {
        tally.program();
        check(texts.0)?;
        for mode in [Mode::Checked, Mode::Trial] {
            for &fuel in fuels {
                let ran = self.run_on_anyhow(mode, texts, baqolluy::open(fuel))?;
                tally.run(mode, ran.answer.refusal, ran.report);
            }
        }
        Ok(())
    }

    fn difference(&self, call: &str, text: &[u8], ours: Answer, theirs: Answer) -> Difference {
        let shown = |buffers: &Buffers, answer: Answer| {
            let report = &buffers.report[..usize::from(answer.length).min(buffers.report.len())];
            format!("{answer:?}\n{}", String::from_utf8_lossy(report))
        };
        let place = |one: &[u8], two: &[u8]| one.iter().zip(two).position(|(a, b)| a != b);
        format!(
            "{call}\nproved: {}reference: {}first byte that differs: report {:?}, work {:?}\ntext:\n{}",
            shown(&self.proved, ours),
            shown(&self.reference, theirs),
            place(&self.proved.report, &self.reference.report),
            place(&self.proved.work, &self.reference.work),
            String::from_utf8_lossy(text)
        )
    }
}

/// The verdict on a text.
pub fn check(text: &[u8]) -> Result<Verdict, Difference> {
    let verdict = baqolluy::check(text);
    let expected = match calls::check(text) {
        Ok(main) => Verdict {
            refusal: 0,
            class: main.class,
            tag: main.tag,
        },
        Err(refusal) => Verdict {
            refusal: refusal.number(),
            class: 0,
            tag: 0,
        },
    };
    if verdict == expected {
        return Ok(verdict);
    }
    let text = String::from_utf8_lossy(text);
    Err(format!(
        "check\nproved: {verdict:?}\nreference: {expected:?}\ntext:\n{text}"
    ))
}

/// Closes a session.
pub fn close(session: Session) -> Result<Closing, Difference> {
    let closing = baqolluy::close(session);
    let answer = as_answer(calls::close(reference_session(session)));
    let expected = Closing {
        refusal: answer.refusal,
        session: answer.session,
    };
    if closing == expected {
        return Ok(closing);
    }
    Err(format!(
        "close {session:?}\nproved: {closing:?}\nreference: {expected:?}"
    ))
}

/// A text as the tests write it, with `/` for LF.
pub fn slashed(lines: &str) -> String {
    lines.replace('/', "\n")
}

/// What `linerun` writes for a text without a second one, and the fuel left.
pub fn output(mode: Mode, fuel: u16, text: &[u8]) -> (String, u16) {
    output_on(mode, fuel, text, b"")
}

/// What `linerun` writes for both texts, and the fuel left: a checked run has a verdict line first, a trial run only if
/// it is refused. Panics where the engines differ.
pub fn output_on(mode: Mode, fuel: u16, text: &[u8], input: &[u8]) -> (String, u16) {
    let mut bench = Bench::new(u64::from(fuel));
    let verdict = check(text).unwrap_or_else(|difference| panic!("{difference}"));
    let ran = bench.run_on_anyhow(mode, (text, input), baqolluy::open(fuel));
    let ran = ran.unwrap_or_else(|difference| panic!("{difference}"));
    let line = match (ran.answer.refusal, mode) {
        (0, Mode::Checked) => format!("0800{:02X}{:02X}\n", verdict.class, verdict.tag),
        (0, Mode::Trial) => String::new(),
        (refusal, _) => format!("08{refusal:02X}\n"),
    };
    let report = String::from_utf8_lossy(ran.report);
    (format!("{line}{report}"), ran.answer.session.fuel)
}

fn reference_session(session: Session) -> calls::Session {
    calls::Session {
        open: session.active,
        fuel: session.fuel,
    }
}

/// The reference engine's answer in the words of the proved one.
fn as_answer(answer: calls::Answer) -> Answer {
    Answer {
        refusal: answer.refusal.map_or(0, Refusal::number),
        session: Session {
            active: answer.session.open,
            fuel: answer.session.fuel,
        },
        length: u16::try_from(answer.length).expect("a report is short"),
    }
}
