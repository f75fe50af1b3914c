//! The examples of source 002 that the line language can express. Integers,
//! booleans, digits, symbols and identities are small classes; `if` and `let`
//! are methods that the deciding object dispatches.
//!
//! Every expected report is worked out by hand from 002's own value for the
//! example; the comment says how. None is copied from an engine's output.

mod common;

#[path = "examples/automata.rs"]
mod automata;
#[path = "examples/booleans.rs"]
mod booleans;
#[path = "examples/decimals.rs"]
mod decimals;
#[path = "examples/graphs.rs"]
mod graphs;
#[path = "examples/lists.rs"]
mod lists;
#[path = "examples/sections.rs"]
mod sections;
