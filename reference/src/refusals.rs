//! The numbered refusals, "from the input" and "from the state", and the
//! lengths they test; 14 and 15 are of the second text. Which call gives which is decided elsewhere.

/// A refusal; the discriminant is document 01's number.
#[derive(Clone, Copy, Debug, PartialEq, Eq, PartialOrd, Ord)]
pub enum Refusal {
    LineForm = 1,
    Frame = 2,
    Order = 3,
    Classes = 4,
    Override = 5,
    Method = 6,
    Main = 7,
    Unwritable = 8,
    TextBuffer = 9,
    Closed = 11,
    ReportBuffer = 12,
    WorkBuffer = 13,
    /// A second text that is missing, not asked for, or no list of parts.
    Parts = 14,
    /// Reached parts that do not fit where they are held, or too many.
    Places = 15,
}

impl Refusal {
    pub fn number(self) -> u8 {
        self as u8
    }
}

/// Longest text: 97 lines of 255 bytes, two digits a byte and an LF.
pub const TEXT_LENGTH: usize = 49_567;
/// Longest report: 32 lines of 16 bytes, two digits a byte and an LF.
pub const REPORT_LENGTH: usize = 1_056;
/// The work buffer's length, and the length a run leaves zeroed.
pub const WORK_LENGTH: usize = 163_840;
