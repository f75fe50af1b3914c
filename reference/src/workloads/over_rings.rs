//! New objects over rings: which objects of one part are equal to objects of
//! another must be found before the new one is made. The parts were built once
//! and lie apart. Rings that close to fewer objects are in `rings.rs`, parts
//! among many other objects in `parts.rs`.

use super::laying::{Row, calls_to_lay};
use super::repeat::{fuel, repeated};
use super::{Times, Workload};
use crate::builder::{Program, call, minus, minus_open, new, param, plus, res, this};
use crate::syntax::Expr;

const NODE: u8 = 1;
const COMMON: u8 = 2;
/// ODD + k is the class of the one object of ring k unlike the others.
const ODD: u8 = 3;
const HOLDER: u8 = 7;
const CELL: u8 = 8;

/// Ring k is laid by the names from RINGS + 16 k on.
const RINGS: u8 = 0x10;

/// The classes, and methods that lay four rings.
fn four_rings(objects: usize) -> Program {
    let mut p = Program::start();
    let any = minus(0);
    p.class(0, &[plus(NODE)]);
    p.class(NODE, &[]);
    for _ in ODD..HOLDER {
        p.class(NODE, &[]);
    }
    p.class(0, &[]);
    p.class(0, &[any, any]);
    for ring in 0..4 {
        let mut classes = vec![COMMON; objects];
        classes[objects - 1] = ODD + ring;
        let row = Row {
            holder: HOLDER,
            name: RINGS + 16 * ring,
            base: NODE,
            params: &[],
        };
        row.ring(&mut p, &classes, |class, next| new(class, [next]));
    }
    p
}

fn made(ring: u8) -> Expr {
    call(RINGS + 16 * ring, new(HOLDER, []), [])
}

/// Rings made in main, and the work done with them again and again.
fn worked(name: String, objects: usize, rings: &[u8], work: Expr, ends_in: usize) -> Workload {
    const TIMES: Times = Times(15, 9);
    let mut p = four_rings(objects);
    let (first, others) = rings.split_first().expect("a ring");
    let params = vec![plus(NODE); others.len()];
    let start = repeated(&mut p, NODE, &params, work, TIMES);
    let others = others.iter().map(|&ring| made(ring)).collect();
    let text = p.text(start(made(*first), others));
    let spends = rings.len() * (calls_to_lay(objects) + 1) + fuel(TIMES, 0);
    Workload::checked(name, text, spends, ends_in)
}

/// One object over two rings of so many objects, none of one equal to one of
/// the other.
pub fn pair_of_rings(objects: usize) -> Workload {
    let pair = new(CELL, [this(), param(0)]);
    let name = format!("pair of rings of {objects}");
    worked(name, objects, &[0, 1], pair, 2 * objects + 1)
}

/// One object over two equal rings that were built apart.
pub fn ring_twice(objects: usize) -> Workload {
    let pair = new(CELL, [this(), param(0)]);
    let name = format!("ring of {objects}, twice");
    worked(name, objects, &[0, 0], pair, objects + 1)
}

/// A list of four rings, none of one equal to one of another.
pub fn list_of_rings(objects: usize) -> Workload {
    let rings = [this(), param(0), param(1), param(2)];
    let list = rings
        .into_iter()
        .rev()
        .reduce(|rest, ring| new(CELL, [ring, rest]));
    let name = format!("list of four rings of {objects}");
    worked(
        name,
        objects,
        &[0, 1, 2, 3],
        list.expect("four"),
        4 * objects + 3,
    )
}

/// So many calls inside each other, each of which closes a ring of all objects
/// that were made before it.
pub fn closing_each(calls: u8, times: Times) -> Workload {
    const NODE: u8 = 1;
    const COMMON: u8 = 2;
    const OTHER: u8 = 3;
    const HOLDER: u8 = 4;
    const BUILT: u8 = 1;
    const FIRST: u8 = 0x10;
    let mut p = Program::start();
    p.class(0, &[plus(NODE), plus(NODE)]);
    p.class(NODE, &[]);
    p.class(NODE, &[]);
    p.class(0, &[]);
    let start = || call(FIRST, this(), []);
    for place in 0..calls {
        let own = call(FIRST + place, this(), []);
        let next = call(FIRST + (place + 1) % calls, this(), []);
        let class = if place == 0 { OTHER } else { COMMON };
        let left = new(class, [own, new(COMMON, [next, start()])]);
        let ring = (plus(NODE), minus_open(NODE));
        p.method((HOLDER, FIRST + place), ring, &[], (left, res()));
    }
    let any = (minus(0), minus(0));
    p.method((HOLDER, BUILT), any, &[], (start(), this()));
    let again = repeated(&mut p, HOLDER, &[], call(BUILT, this(), []), times);
    let text = p.text(again(new(HOLDER, []), vec![]));
    // Each call, its own and the first met again; the last leads to the first.
    let work = 1 + 3 * usize::from(calls) + 1;
    let name = format!("{calls} calls, each closes a ring");
    Workload::checked(name, text, fuel(times, work), 2 * usize::from(calls))
}
