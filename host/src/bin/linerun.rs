//! The program `linerun`: a text, and a second one after an `04` main, on standard input; the verdict line and, after `00`,
//! the report on standard output. It decides nothing of what is written: that comes from `line_show`.
//!
//! No more than the characters that decide the answer are read: what comes after them is left where it is, so that an
//! endless input ends too. A read that fails is the end of the input; a write that fails is status 1.
//!
//! It starts without Rust's own start-up, which would open /dev/null for a closed output, and nothing would be seen to fail.
#![no_main]

use baqolluy::{REPORT_LENGTH, SHOWN_LENGTH, WORK_LENGTH, show};
use std::fs::File;
use std::io::{self, Read, Write};
use std::os::fd::{BorrowedFd, RawFd};

const STANDARD_INPUT: RawFd = 0;
const STANDARD_OUTPUT: RawFd = 1;

const SIGPIPE: i32 = 13;
const IGNORE: usize = 1;

unsafe extern "C" {
    safe fn signal(number: i32, action: usize) -> usize;
}

#[unsafe(no_mangle)]
extern "C" fn main() -> i32 {
    // A pipe that nobody reads is then a write that fails.
    signal(SIGPIPE, IGNORE);
    match written(&input()) {
        Ok(()) => 0,
        Err(error) => {
            let _ = writeln!(io::stderr(), "linerun: {error}");
            1
        }
    }
}

/// What is lent under a number at the start, if it is open.
fn lent(number: RawFd) -> io::Result<File> {
    // SAFETY: it is borrowed to be doubled and no longer; a number that is not open is refused by the system.
    let borrowed = unsafe { BorrowedFd::borrow_raw(number) };
    borrowed.try_clone_to_owned().map(File::from)
}

/// The characters that decide the answer, as far as they can be read.
fn input() -> Vec<u8> {
    let mut input = Vec::with_capacity(SHOWN_LENGTH);
    if let Ok(file) = lent(STANDARD_INPUT) {
        // What was read before an error is kept.
        let _ = file.take(SHOWN_LENGTH as u64).read_to_end(&mut input);
    }
    input
}

/// Writes what is shown for an input, in one piece.
fn written(input: &[u8]) -> io::Result<()> {
    let mut report = [0; REPORT_LENGTH];
    let mut work = vec![0; WORK_LENGTH];
    let shown = show(input, &mut report, &mut work);
    let verdict = &shown.verdict[..usize::from(shown.verdict_length)];
    let output = [verdict, &report[..usize::from(shown.length)]].concat();
    lent(STANDARD_OUTPUT)?.write_all(&output)
}
