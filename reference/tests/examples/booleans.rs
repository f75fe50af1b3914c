//! What the examples share: the reports of the two booleans. No test is here.

pub const YES: &str = "05000200";
pub const NO: &str = "05000300";
