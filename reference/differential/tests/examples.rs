//! 002's examples (reference/tests/examples) through the proved engine: the same programs and hand-worked reports, with
//! `checked` and `trial` running both engines and comparing them.

/// Of these helpers only `lines` is used.
#[path = "../../tests/common/mod.rs"]
mod helpers;

/// What the examples ask for in place of them.
mod common {
    pub use super::helpers::lines;
    use differential::compare::output;
    use reference::calls::Mode;

    pub fn checked(fuel: u16, text: &[u8]) -> (String, u16) {
        output(Mode::Checked, fuel, text)
    }

    pub fn trial(fuel: u16, text: &[u8]) -> (String, u16) {
        output(Mode::Trial, fuel, text)
    }
}

#[path = "../../tests/examples/automata.rs"]
mod automata;
#[path = "../../tests/examples/booleans.rs"]
mod booleans;
#[path = "../../tests/examples/decimals.rs"]
mod decimals;
#[path = "../../tests/examples/graphs.rs"]
mod graphs;
#[path = "../../tests/examples/lists.rs"]
mod lists;
#[path = "../../tests/examples/sections.rs"]
mod sections;
