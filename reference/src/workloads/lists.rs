//! Lists of so many objects: cells with an element and a next one, where the
//! element and the end are one object.

use super::repeat::{fuel, repeated};
use super::{ONCE, Times, Workload};
use crate::builder::{Program, call, field, new, param, plus, this};
use crate::syntax::Expr;

const LIST: u8 = 1;
const END: u8 = 2;
const CELL: u8 = 3;
const HOLDER: u8 = 4;

/// LAY + i lays the cells from 4 i on.
const LAY: u8 = 0x10;
const STEP: u8 = 1;
const FOUR: u8 = 2;
const SIXTEEN: u8 = 3;

fn end() -> Expr {
    new(END, [])
}

/// The classes, and methods that build a list: 4 cells a call, so that 31
/// cells are within 16 calls.
fn building(objects: usize) -> Program {
    let mut p = Program::start();
    let list = plus(LIST);
    p.class(0, &[]);
    p.class(LIST, &[]);
    p.class(LIST, &[list, list]);
    p.class(0, &[]);
    let cells = objects - 1;
    for first in (0..cells).step_by(4) {
        let place = LAY + (first / 4) as u8;
        let count = (cells - first).min(4);
        let rest = if first + count == cells {
            end()
        } else {
            call(place + 1, this(), [])
        };
        let left = (0..count).fold(rest, |rest, _| new(CELL, [end(), rest]));
        p.method((HOLDER, place), (list, list), &[], (left, end()));
    }
    if cells == 0 {
        p.method((HOLDER, LAY), (list, list), &[], (end(), end()));
    }
    p
}

fn calls_to_build(objects: usize) -> usize {
    (objects - 1).div_ceil(4).max(1)
}

/// A list of 1 to 32 objects, built by nested calls.
pub fn list_built(objects: usize, times: Times) -> Workload {
    let mut p = building(objects);
    let build = || call(LAY, this(), []);
    let spends = calls_to_build(objects);
    if times == ONCE {
        let text = p.text(call(LAY, new(HOLDER, []), []));
        let name = format!("list of {objects}, built once");
        return Workload::checked(name, text, spends, objects);
    }
    let start = repeated(&mut p, HOLDER, &[], build(), times);
    let text = p.text(start(new(HOLDER, []), vec![]));
    let name = format!("list of {objects}, built");
    Workload::checked(name, text, fuel(times, spends), objects)
}

/// A list of 1 to 32 objects, built once and then walked to its end, a call
/// for each cell: 4 cells, or 16, or 32 in all.
pub fn list_walked(objects: usize, times: Times) -> Workload {
    let mut p = building(objects);
    let list = plus(LIST);
    let mut add = |owner, name, left| p.method((owner, name), (list, list), &[], (left, this()));
    add(LIST, STEP, this());
    add(CELL, STEP, field(1, this()));
    let four_times = |name| (0..4).fold(this(), |list, _| call(name, list, []));
    add(LIST, FOUR, four_times(STEP));
    add(LIST, SIXTEEN, four_times(FOUR));
    let list_of = param(0);
    let (work, spends) = match objects {
        0..=5 => (call(FOUR, list_of, []), 5),
        6..=17 => (call(SIXTEEN, list_of, []), 21),
        _ => (call(SIXTEEN, call(SIXTEEN, list_of, []), []), 42),
    };
    let start = repeated(&mut p, HOLDER, &[list], work, times);
    let built = call(LAY, new(HOLDER, []), []);
    let text = p.text(start(new(HOLDER, []), vec![built]));
    let name = format!("list of {objects}, walked");
    let spends = calls_to_build(objects) + fuel(times, spends);
    Workload::checked(name, text, spends, 1)
}
