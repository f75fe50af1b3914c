//! The proved engine of the line language as safe Rust calls: read and write a class table, find which class a method
//! comes from, check a text, open and close a session, run a text checked or on trial, and show what the program `linerun`
//! writes (src/bin/linerun.rs).
//!
//! What each call answers is proved in crates/engine; here slices and structs only pass across. Nothing is read from
//! files, printed or kept: a session is a value that goes in and comes back.
//!
//! A call needs at most 192 KiB of stack: give a thread that calls no less.
//!
//! Every answer but those of `open` and `find`, which refuse nothing, has a `refusal`, 0 when the call was accepted. A
//! refused call writes nothing in what it was lent.
//! The proofs assume that what is lent to one call does not overlap; here the borrow checker sees to it.
//!
//! Nothing checks these declarations against the Rattle source: host/include/baqolluy.h has the same, for C. What the
//! calls answer with is in `answers.rs`.

mod answers;

use answers::Finding;
pub use answers::{Answer, ClassTable, Closing, Found, Reading, Session, Shown, Verdict, Written};

/// Longest text, and the least length of a buffer to write one in.
pub const TEXT_LENGTH: usize = 49_567;
/// Longest second text of a run; a longer one is no list of parts.
pub const INPUT_LENGTH: usize = 8_382;
/// Least length of a report buffer.
pub const REPORT_LENGTH: usize = 1_056;
/// Least length of a work buffer, and how much of it a run leaves zeroed.
pub const WORK_LENGTH: usize = 163_840;
/// So many characters of what [`show`] is given decide its answer: both texts at their longest and one more.
pub const SHOWN_LENGTH: usize = TEXT_LENGTH + INPUT_LENGTH + 1;
/// Longest verdict line, its LF included.
pub const VERDICT_LENGTH: usize = 9;
/// The bytes of a class table, laid out as docs/TABLE.md says.
pub const TABLE_LENGTH: usize = 25_616;

/// The numbers of the refusals.
pub mod refusal {
    /// Accepted.
    pub const NONE: u8 = 0;
    /// Not the line form, empty, or over 49,567 characters.
    pub const LINE_FORM: u8 = 1;
    /// An unknown first byte, a tag, count or nesting over its limit, a frame too short or too long.
    pub const FRAME: u8 = 2;
    /// Frames out of order, no main, too many classes or methods.
    pub const ORDER: u8 = 3;
    /// A class or a name against the rules.
    pub const CLASSES: u8 = 4;
    /// A method whose types differ from those of the same name above it.
    pub const OVERRIDE: u8 = 5;
    /// A method without a type.
    pub const METHOD: u8 = 6;
    /// A main without a type.
    pub const MAIN: u8 = 7;
    /// A table that no text reads into.
    pub const UNWRITABLE: u8 = 8;
    /// A text buffer under 49,567 bytes.
    pub const TEXT_BUFFER: u8 = 9;
    /// The session is closed.
    pub const CLOSED: u8 = 11;
    /// A report buffer under 1,056 bytes.
    pub const REPORT_BUFFER: u8 = 12;
    /// A work buffer under 163,840 bytes.
    pub const WORK_BUFFER: u8 = 13;
    /// The second text: none where main needs one, one where main takes none, or no list of parts of the program's
    /// classes.
    pub const INPUT: u8 = 14;
    /// Parts or numbers of the second text that do not fit the places that hold them, or more than 32 distinct parts.
    pub const INPUT_FIT: u8 = 15;
}

unsafe extern "C" {
    safe fn line_open(fuel: u16) -> Session;
    safe fn line_close(session: Session) -> Closing;
    fn line_read(text: *const u8, length: usize) -> Reading;
    fn line_write(table: ClassTable, buffer: *mut u8, length: usize) -> Written;
    safe fn line_find(table: &ClassTable, class: u8, name: u8) -> Finding;
    fn line_check(text: *const u8, length: usize) -> Verdict;
    fn line_run(
        text: *const u8,
        text_length: usize,
        input: *const u8,
        input_length: usize,
        session: Session,
        report: *mut u8,
        report_length: usize,
        work: *mut u8,
        work_length: usize,
    ) -> Answer;
    fn line_trial(
        text: *const u8,
        text_length: usize,
        input: *const u8,
        input_length: usize,
        session: Session,
        report: *mut u8,
        report_length: usize,
        work: *mut u8,
        work_length: usize,
    ) -> Answer;
    fn line_show(
        input: *const u8,
        input_length: usize,
        report: *mut u8,
        report_length: usize,
        work: *mut u8,
        work_length: usize,
    ) -> Shown;
}

/// Opens a session with this fuel. It is never refused.
pub fn open(fuel: u16) -> Session {
    line_open(fuel)
}

/// Closes a session, which sets its fuel to 0. Refused with 11, and the same session, if it is closed already.
pub fn close(session: Session) -> Closing {
    line_close(session)
}

/// Reads a text into its class table. Refused with the lowest of 1 to 5 that it earns.
pub fn read(text: &[u8]) -> Reading {
    // SAFETY: pointer and length are those of one slice, which the call only reads.
    unsafe { line_read(text.as_ptr(), text.len()) }
}

/// Writes the text of a table at the front of the buffer; the bytes after it stay. Refused with 8 if no text reads
/// into the table, then with 9 if the buffer has under 49,567 bytes.
pub fn write(table: &ClassTable, buffer: &mut [u8]) -> Written {
    // SAFETY: pointer and length are those of one slice, lent for the call.
    unsafe { line_write(*table, buffer.as_mut_ptr(), buffer.len()) }
}

/// Where the method of a name is found from a class: in the class itself, or in the nearest class above it that has one;
/// `None` where none has. Any class and name may be asked for, and it is never refused. Of a table that no text reads into
/// it is what the table's index says, by docs/TABLE.md.
pub fn find(table: &ClassTable, class: u8, name: u8) -> Option<Found> {
    line_find(table, class, name).into()
}

/// Checks a text and gives the type of its main. Refused with the lowest of 1 to 7 that it earns.
pub fn check(text: &[u8]) -> Verdict {
    // SAFETY: pointer and length are those of one slice, which the call only reads.
    unsafe { line_check(text.as_ptr(), text.len()) }
}

/// Runs a text whose types are checked first. Refused with 11 if the session is closed, 12 if `report` has under 1,056
/// bytes, 13 if `work` has under 163,840, in this order; then with the lowest of 1 to 7 that the text earns; then with 14
/// or 15 for the second text.
///
/// The second text, `input`, lists the parts of the value that a main `04` is given, one line each; a main `03` takes
/// none. An empty one counts as none.
///
/// A refused run gives back the same session and length 0, and writes nothing. Any other writes its report at the
/// front of `report`, zeroes the first 163,840 bytes of `work`, leaves the bytes after both, and gives the session back
/// with the fuel that is left.
pub fn run(
    text: &[u8],
    input: &[u8],
    session: Session,
    report: &mut [u8],
    work: &mut [u8],
) -> Answer {
    // SAFETY: each pointer and length are those of one slice; the two that are written are lent for the call.
    unsafe {
        line_run(
            text.as_ptr(),
            text.len(),
            input.as_ptr(),
            input.len(),
            session,
            report.as_mut_ptr(),
            report.len(),
            work.as_mut_ptr(),
            work.len(),
        )
    }
}

/// Runs a text without checking its types: as [`run`], but never refused with 6 or 7.
pub fn trial(
    text: &[u8],
    input: &[u8],
    session: Session,
    report: &mut [u8],
    work: &mut [u8],
) -> Answer {
    // SAFETY: as in `run`.
    unsafe {
        line_trial(
            text.as_ptr(),
            text.len(),
            input.as_ptr(),
            input.len(),
            session,
            report.as_mut_ptr(),
            report.len(),
            work.as_mut_ptr(),
            work.len(),
        )
    }
}

/// What `linerun` writes for an input: the verdict line by value, and after `0800` the report of a checked run with fuel
/// 1,000 at the front of `report`. The two texts are cut here: the second is all that follows the first line beginning
/// `04`. No more than [`SHOWN_LENGTH`] characters of the input count.
///
/// Refused with 12 if `report` has under 1,056 bytes, then with 13 if `work` has under 163,840; then nothing is written.
/// What the texts are refused for stands in the verdict line, and nothing is written then either.
pub fn show(input: &[u8], report: &mut [u8], work: &mut [u8]) -> Shown {
    // SAFETY: each pointer and length are those of one slice; the two that are written are lent for the call.
    unsafe {
        line_show(
            input.as_ptr(),
            input.len(),
            report.as_mut_ptr(),
            report.len(),
            work.as_mut_ptr(),
            work.len(),
        )
    }
}
