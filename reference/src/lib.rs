//! The reference engine: the line language of document 01, written straight
//! from that document and from nothing else, so that its answers can be
//! compared with those of the proved engine.
//!
//! It is simple before it is fast; `fast` is the language a second time, written
//! for speed and tested against the simple mode. It does not infer types, and it
//! promises nothing by proof: its tests and the comparison are its only warrant.

pub mod batch;
pub mod builder;
pub mod calls;
pub mod classes;
pub mod examples;
pub mod fast;
pub mod generator;
pub mod linerun;
pub mod reading;
pub mod refusals;
pub mod report;
pub mod running;
pub mod syntax;
pub mod text;
pub mod typing;
pub mod values;
pub mod workloads;
pub mod writing;
