//! Programs for measuring speed: what to call, on which text, with how much
//! fuel, and what must come of it. They time nothing; the benchmark does, and
//! `tests/workloads.rs` sees that each ends as it says.
//!
//! Most rows come twice: light, where the work is done once, and heavy, where
//! it is done again and again, so that evaluation outweighs reading. The last
//! rows have a second text, or are those of numbers, of chains of classes or of
//! values that are compared.

mod batch;
mod chains;
mod compared;
mod examples;
mod laying;
mod lists;
mod nested;
mod over_rings;
pub mod parts;
mod repeat;
mod rings;
mod tallies;

use crate::calls::Mode;
use crate::generator::random::Random;
use crate::generator::{self, Kind};
pub use batch::batch;
pub use lists::{list_built, list_walked};
use over_rings::{closing_each, list_of_rings, pair_of_rings, ring_twice};
use parts::{Parts, Shape, Word};
use rings::ring_closing_to;
pub use rings::{ring_built, ring_walked};

#[derive(Clone, Copy, Debug, PartialEq, Eq)]
pub enum Call {
    Check,
    Run(Mode),
}

/// What a workload must come to.
#[derive(Clone, Copy, Debug, PartialEq, Eq)]
pub enum Ending {
    /// A value of so many distinct objects.
    Objects(usize),
    /// This number.
    Number(u16),
    OutOfFuel,
    /// No run: the text is accepted.
    Accepted,
    /// No run: refused with this number.
    Refused(u8),
}

#[derive(Clone, Debug)]
pub struct Workload {
    pub name: String,
    pub call: Call,
    pub text: Vec<u8>,
    /// Empty in all rows but those named `batch` and those of `compared.rs`.
    pub second: Vec<u8>,
    pub fuel: u16,
    /// Units the run spends.
    pub spends: usize,
    pub ending: Ending,
}

/// How often a piece of work is done: so often by each of so many calls.
#[derive(Clone, Copy, Debug, PartialEq, Eq)]
pub struct Times(pub usize, pub usize);

pub const ONCE: Times = Times(1, 1);

impl Workload {
    /// A checked run that ends in a value, with more fuel than it needs.
    fn checked(name: String, text: Vec<u8>, spends: usize, objects: usize) -> Workload {
        Workload {
            name,
            call: Call::Run(Mode::Checked),
            text,
            second: Vec::new(),
            fuel: u16::MAX,
            spends,
            ending: Ending::Objects(objects),
        }
    }

    /// The same program with so little fuel that it runs out.
    pub fn short_of_fuel(self, fuel: u16) -> Workload {
        Workload {
            fuel,
            spends: usize::from(fuel),
            ending: Ending::OutOfFuel,
            ..self
        }
    }
}

/// Every row of the table.
pub fn all() -> Vec<Workload> {
    let mut all = small_and_full();
    for objects in [4, 16, 32] {
        all.push(list_built(objects, ONCE));
        all.push(list_built(objects, Times(9, 23)));
        all.push(list_walked(objects, Times(23, 23)));
        all.push(ring_built(objects, ONCE));
        all.push(ring_built(objects, Times(9, 23)));
        all.push(ring_walked(objects, Times(23, 23)));
    }
    all.extend(examples::all());
    all.extend(nested::all());
    all.extend(equal_objects());
    all.extend(batch());
    all.extend(tallies::all());
    all.extend(chains::all());
    all.extend(compared::all());
    all
}

/// Where equal objects have to be found among many.
fn equal_objects() -> Vec<Workload> {
    let among_others = Parts {
        shape: Shape::Ring,
        word: Word::Alike,
        objects: 1,
        turn: 0,
        beside: 31,
        count: 4,
    };
    let name = "21 new objects over loops";
    vec![
        pair_of_rings(4),
        pair_of_rings(8),
        pair_of_rings(15),
        ring_twice(31),
        list_of_rings(6),
        ring_closing_to(16, Times(9, 23)),
        ring_closing_to(8, Times(9, 23)),
        ring_closing_to(1, Times(9, 23)),
        closing_each(10, Times(1, 23)),
        among_others.workload(name.to_string(), 1_000),
    ]
}

/// The rows for time against fuel: each runs out of it.
pub fn by_fuel(fuel: u16) -> Vec<Workload> {
    let rows = [
        list_walked(16, Times(145, 23)),
        ring_built(12, Times(529, 23)),
        nested::recursion_of_13(Times(225, 23)),
    ];
    let shorten = |row: Workload| row.short_of_fuel(fuel);
    rows.into_iter().map(shorten).collect()
}

/// The rows for time against objects. Lists are not walked here: longer ones
/// take more steps.
pub fn by_objects(objects: usize) -> Vec<Workload> {
    vec![
        list_built(objects, Times(1, 23)),
        ring_built(objects, Times(1, 23)),
        ring_walked(objects, Times(5, 23)),
    ]
}

/// The row for a new object over rings against their objects, up to 31.
pub fn by_objects_of_a_ring(objects: usize) -> Vec<Workload> {
    vec![ring_twice(objects)]
}

/// The overhead of one call, and reading and checking a full-size text. A run
/// without fuel reads, checks if it is a checked one, and stops at once.
fn small_and_full() -> Vec<Workload> {
    let smallest = b"03450000\n".to_vec();
    let full = generator::text(Kind::Full, &mut Random::for_case(1, 0));
    let row = |name: &str, call, text: &[u8], ending| Workload {
        name: name.to_string(),
        call,
        text: text.to_vec(),
        second: Vec::new(),
        fuel: 0,
        spends: 0,
        ending,
    };
    let (checked, trial) = (Call::Run(Mode::Checked), Call::Run(Mode::Trial));
    let one = Ending::Objects(1);
    vec![
        row("smallest, check", Call::Check, &smallest, Ending::Accepted),
        row("smallest, checked run", checked, &smallest, one),
        row("smallest, trial run", trial, &smallest, one),
        row("full text, check", Call::Check, &full, Ending::Accepted),
        row("full text, trial, no fuel", trial, &full, Ending::OutOfFuel),
        row(
            "full text, checked, no fuel",
            checked,
            &full,
            Ending::OutOfFuel,
        ),
    ]
}
