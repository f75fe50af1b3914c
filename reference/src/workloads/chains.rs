//! Calls on an object of the lowest class of a chain; the highest has the
//! methods, so that each is looked for in every class between.

use super::repeat::{fuel, repeated};
use super::{Times, Workload};
use crate::builder::{Program, call, plus, this};
use crate::syntax::Expr;

/// The highest class.
const TOP: u8 = 1;
const SAME: u8 = 1;

pub fn all() -> Vec<Workload> {
    [1, 8, 32].map(chain_of).into()
}

fn chain_of(classes: u8) -> Workload {
    let times = Times(145, 23);
    let mut p = Program::start();
    for above in 0..classes {
        p.class(above, &[]);
    }
    let top = plus(TOP);
    p.method((TOP, SAME), (top, top), &[], (this(), this()));
    let start = repeated(&mut p, TOP, &[], call(SAME, this(), []), times);
    let lowest = Expr::New(classes, Vec::new());
    let text = p.text(start(lowest, vec![]));
    let name = format!("calls down a chain of {classes}");
    Workload::checked(name, text, fuel(times, 1), 1)
}
