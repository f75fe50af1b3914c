//! The public calls: sessions, check, and the checked and trial runs.
//! Here is the order of the refusals and which bytes of the lent buffers
//! change; everything else is asked of the other files.

use crate::batch;
use crate::reading;
use crate::refusals::{REPORT_LENGTH, Refusal, WORK_LENGTH};
use crate::report::report;
use crate::running;
use crate::syntax::{Table, Type};
use crate::typing;
use crate::values::Value;

#[derive(Clone, Copy, Debug, PartialEq, Eq)]
pub struct Session {
    pub open: bool,
    pub fuel: u16,
}

#[derive(Clone, Copy, Debug, PartialEq, Eq)]
pub enum Mode {
    Checked,
    Trial,
}

/// What a call gives back: its refusal if it was refused, the session, and
/// the length of the report, 0 when there is none.
#[derive(Clone, Copy, Debug, PartialEq, Eq)]
pub struct Answer {
    pub refusal: Option<Refusal>,
    pub session: Session,
    pub length: usize,
}

/// Opens a session.
pub fn open(fuel: u16) -> Session {
    Session { open: true, fuel }
}

/// Closes a session, which sets its fuel to 0.
pub fn close(session: Session) -> Answer {
    if !session.open {
        return refused(Refusal::Closed, session);
    }
    Answer {
        refusal: None,
        session: Session {
            open: false,
            fuel: 0,
        },
        length: 0,
    }
}

/// The type of main, or the lowest of refusals 1 to 7.
pub fn check(text: &[u8]) -> Result<Type, Refusal> {
    typing::check(&reading::read(text)?)
}

/// Runs a text without a second one.
pub fn run(
    mode: Mode,
    text: &[u8],
    session: Session,
    report_buffer: &mut [u8],
    work: &mut [u8],
) -> Answer {
    run_batch(mode, text, &[], session, report_buffer, work)
}

/// Runs a text on a second one; an empty one counts as none. A refused run
/// writes nothing; any other writes the report at the front of its buffer and
/// zeroes the first 163,840 work bytes.
pub fn run_batch(
    mode: Mode,
    text: &[u8],
    second: &[u8],
    session: Session,
    report_buffer: &mut [u8],
    work: &mut [u8],
) -> Answer {
    if let Some(refusal) = state_refusal(session, report_buffer, work) {
        return refused(refusal, session);
    }
    let (table, input) = match admitted(mode, text, second) {
        Ok(admitted) => admitted,
        Err(refusal) => return refused(refusal, session),
    };
    let (outcome, fuel) = running::run_on(&table, input, session.fuel);
    let written = report(&outcome);
    report_buffer[..written.len()].copy_from_slice(&written);
    work[..WORK_LENGTH].fill(0);
    Answer {
        refusal: None,
        session: Session { fuel, ..session },
        length: written.len(),
    }
}

pub(crate) fn refused(refusal: Refusal, session: Session) -> Answer {
    Answer {
        refusal: Some(refusal),
        session,
        length: 0,
    }
}

/// What the state refuses before the text is looked at.
pub(crate) fn state_refusal(session: Session, report: &[u8], work: &[u8]) -> Option<Refusal> {
    if !session.open {
        Some(Refusal::Closed)
    } else if report.len() < REPORT_LENGTH {
        Some(Refusal::ReportBuffer)
    } else if work.len() < WORK_LENGTH {
        Some(Refusal::WorkBuffer)
    } else {
        None
    }
}

/// The table of a text this mode runs, and the value that main is given. A
/// trial run never asks for types.
fn admitted(mode: Mode, text: &[u8], second: &[u8]) -> Result<(Table, Option<Value>), Refusal> {
    let table = reading::read(text)?;
    if mode == Mode::Checked {
        typing::check(&table)?;
    }
    let input = batch::input(&table, second)?;
    Ok((table, input))
}
