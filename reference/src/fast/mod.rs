//! The fast mode: the same answers as `calls`, written for speed, so that a
//! ratio to the proved engine means something. It shares no code with the
//! simple mode but the plain data and the state refusals of `calls`, and the
//! data of `refusals`, `running::Stop` and `syntax::Type`; `tests/fast.rs`
//! compares the two.
//!
//! Values are hash-consed: equal values have one id, so calls are compared by
//! ids, a field is one load, and a ring is minimised once, when it is closed.
//! The arena lives for one run and is never swept: a run makes at most one
//! node for each `new` it evaluates.

mod arena;
mod batch;
mod code;
mod colours;
mod frames;
mod groups;
mod lines;
mod numbers;
mod parts;
mod program;
mod reading;
mod report;
mod rings;
mod running;
mod slots;
mod typing;

use crate::calls::{Answer, Mode, Session, refused, state_refusal};
use crate::refusals::{Refusal, WORK_LENGTH};
use crate::syntax::Type;
use arena::{Arena, Id};
use program::Program;

/// Whether a text passes refusals 1 to 5.
pub fn read(text: &[u8]) -> Result<(), Refusal> {
    reading::read(text).map(drop)
}

/// The type of main, or the lowest of refusals 1 to 7.
pub fn check(text: &[u8]) -> Result<Type, Refusal> {
    typing::check(&reading::read(text)?)
}

/// Runs a text without a second one.
pub fn run(
    mode: Mode,
    text: &[u8],
    session: Session,
    report_buffer: &mut [u8],
    work: &mut [u8],
) -> Answer {
    run_batch(mode, text, &[], session, report_buffer, work)
}

/// Runs a text on a second one, as `calls::run_batch` does, work buffer and all.
pub fn run_batch(
    mode: Mode,
    text: &[u8],
    second: &[u8],
    session: Session,
    report_buffer: &mut [u8],
    work: &mut [u8],
) -> Answer {
    let admitted = match state_refusal(session, report_buffer, work) {
        Some(refusal) => Err(refusal),
        None => admitted(mode, text, second),
    };
    let Admitted {
        program,
        arena,
        input,
    } = match admitted {
        Ok(admitted) => admitted,
        Err(refusal) => return refused(refusal, session),
    };
    let (outcome, arena, fuel) = running::run(&program, arena, input, session.fuel);
    let length = report::write(outcome, &arena, report_buffer);
    work[..WORK_LENGTH].fill(0);
    Answer {
        refusal: None,
        session: Session { fuel, ..session },
        length,
    }
}

/// A program that may be run, and its input among the values.
struct Admitted {
    program: Program,
    arena: Arena,
    input: Option<Id>,
}

fn admitted(mode: Mode, text: &[u8], second: &[u8]) -> Result<Admitted, Refusal> {
    let program = reading::read(text)?;
    if mode == Mode::Checked {
        typing::check(&program)?;
    }
    let mut arena = Arena::new();
    let input = batch::input(&program, second, &mut arena)?;
    Ok(Admitted {
        program,
        arena,
        input,
    })
}
