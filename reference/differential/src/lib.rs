//! The proved engine, through its static library, against the reference engine: what the tests and the examples share.
//! The proved calls themselves are in host/; what single programs must give is said in the tests.

pub mod compare;
pub mod finds;
pub mod sample;
pub mod show;
pub mod table;
pub mod tally;
pub mod timing;
