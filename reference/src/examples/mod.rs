//! Programs of source 002 that the tests and the workloads share: classes and
//! methods, to which each adds what it alone needs and a main. Booleans, digits,
//! symbols and identities are small classes; `if` is a method that the deciding
//! object dispatches. A class of its own, FACT, has the methods that make values.
//! Of request 2026-04, not of 002: `compared`, whole inputs and what comes of them.

pub mod automata;
pub mod booleans;
pub mod compared;
pub mod fractions;
pub mod graphs;
pub mod methods;
