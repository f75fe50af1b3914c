//! What the calls take and answer with, laid out as the library has it. Sizes and places are asserted here and in
//! host/include/baqolluy.h. The calls themselves are in `lib.rs`.

use crate::{TABLE_LENGTH, VERDICT_LENGTH};
use std::mem::{offset_of, size_of};

/// A session: whether it is open, and the fuel that is left.
#[repr(C)]
#[derive(Clone, Copy, Debug, PartialEq, Eq)]
pub struct Session {
    pub active: bool,
    pub fuel: u16,
}

/// What a run answers: the session after it, and the length of its report.
#[repr(C)]
#[derive(Clone, Copy, Debug, PartialEq, Eq)]
pub struct Answer {
    pub refusal: u8,
    pub session: Session,
    pub length: u16,
}

/// What closing answers.
#[repr(C)]
#[derive(Clone, Copy, Debug, PartialEq, Eq)]
pub struct Closing {
    pub refusal: u8,
    pub session: Session,
}

/// What a check answers: the class and the tag of main, both 0 if refused.
#[repr(C)]
#[derive(Clone, Copy, Debug, PartialEq, Eq)]
pub struct Verdict {
    pub refusal: u8,
    pub class: u8,
    pub tag: u8,
}

/// What writing answers: the length of the text, 0 if refused.
#[repr(C)]
#[derive(Clone, Copy, Debug, PartialEq, Eq)]
pub struct Written {
    pub refusal: u8,
    pub length: u16,
}

/// What showing answers: the verdict line, unused bytes 0, and the length of the report. Both lengths are 0 if refused;
/// that of the report also when the texts are.
#[repr(C)]
#[derive(Clone, Copy, Debug, PartialEq, Eq)]
pub struct Shown {
    pub refusal: u8,
    pub verdict_length: u8,
    pub verdict: [u8; VERDICT_LENGTH],
    pub length: u16,
}

/// A class table.
#[repr(C)]
#[derive(Clone, Copy, PartialEq, Eq)]
pub struct ClassTable {
    pub bytes: [u8; TABLE_LENGTH],
}

/// What reading answers: the table, all zeros if refused.
#[repr(C)]
pub struct Reading {
    pub refusal: u8,
    pub table: ClassTable,
}

/// A method that was found: the class that has it itself, and its number among the text's methods, from 0.
#[derive(Clone, Copy, Debug, PartialEq, Eq)]
pub struct Found {
    pub owner: u8,
    pub method: u8,
}

/// What finding answers in the library: both numbers are 0 where nothing is found. Rust programs are given an `Option`.
#[repr(C)]
pub(crate) struct Finding {
    found: bool,
    owner: u8,
    method: u8,
}

impl From<Finding> for Option<Found> {
    fn from(finding: Finding) -> Option<Found> {
        let Finding {
            found,
            owner,
            method,
        } = finding;
        found.then_some(Found { owner, method })
    }
}

// Sizes and places as the library has them.
const _: () = {
    assert!(size_of::<Session>() == 4);
    assert!(offset_of!(Session, active) == 0 && offset_of!(Session, fuel) == 2);
    assert!(size_of::<Answer>() == 8 && offset_of!(Answer, refusal) == 0);
    assert!(offset_of!(Answer, session) == 2 && offset_of!(Answer, length) == 6);
    assert!(size_of::<Closing>() == 6);
    assert!(offset_of!(Closing, refusal) == 0 && offset_of!(Closing, session) == 2);
    assert!(size_of::<Verdict>() == 3 && offset_of!(Verdict, refusal) == 0);
    assert!(offset_of!(Verdict, class) == 1 && offset_of!(Verdict, tag) == 2);
    assert!(size_of::<Written>() == 4);
    assert!(offset_of!(Written, refusal) == 0 && offset_of!(Written, length) == 2);
    assert!(size_of::<Shown>() == 14 && offset_of!(Shown, refusal) == 0);
    assert!(offset_of!(Shown, verdict_length) == 1 && offset_of!(Shown, verdict) == 2);
    assert!(offset_of!(Shown, length) == 12);
    assert!(size_of::<ClassTable>() == TABLE_LENGTH);
    assert!(size_of::<Reading>() == 1 + TABLE_LENGTH);
    assert!(offset_of!(Reading, refusal) == 0 && offset_of!(Reading, table) == 1);
    assert!(size_of::<Finding>() == 3 && offset_of!(Finding, found) == 0);
    assert!(offset_of!(Finding, owner) == 1 && offset_of!(Finding, method) == 2);
};
