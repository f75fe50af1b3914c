//! Values that are compared again and again by a call, `m(x, y)`, which calls
//! `m(y, x)`: that is met again if the two are equal. Calls met again by equal
//! lists are in `tallies.rs`, objects made over equal rings in `over_rings.rs`.

use super::repeat::{fuel, repeated};
use super::{Times, Workload};
use crate::builder::{Program, call, minus, new, param, plus, this};
use crate::generator::batch::parts::text;
use crate::values::{MAX_OBJECTS, Object, Ref};

const BASE: u8 = 1;
const COMMON: u8 = 2;
const ODD: u8 = 3;
const HOLDER: u8 = 4;

const COMPARE: u8 = 1;

pub fn all() -> Vec<Workload> {
    vec![last_place_differs()]
}

/// A ring whose last object is odd comes in. An object that leads to it is unlike
/// it, which shows only where one of the two comes to the odd one.
fn last_place_differs() -> Workload {
    const TIMES: Times = Times(9, 23);
    let base = plus(BASE);
    let mut p = Program::start();
    p.class(0, &[]);
    p.class(BASE, &[base]);
    p.class(BASE, &[base]);
    p.class(0, &[]);
    let exchanged = call(COMPARE, this(), [param(1), param(0)]);
    let results = (minus(BASE), minus(BASE));
    let sides = (exchanged, param(1));
    p.method((HOLDER, COMPARE), results, &[base, base], sides);
    let work = call(COMPARE, this(), [param(0), param(1)]);
    let start = repeated(&mut p, HOLDER, &[base, base], work, TIMES);
    let two = vec![param(0), new(COMMON, [param(0)])];
    let main = start(new(HOLDER, []), two);
    // The two are unlike: the third call is met again.
    let spends = fuel(TIMES, 3);
    let name = "compared: last place differs".to_string();
    let row = Workload::checked(name, p.batch_text(BASE, main), spends, MAX_OBJECTS);
    let second = ring(MAX_OBJECTS - 1);
    Workload { second, ..row }
}

/// The text of a ring of so many parts, the last of them odd.
fn ring(count: usize) -> Vec<u8> {
    let part = |place: usize| Object {
        class: if place + 1 == count { ODD } else { COMMON },
        fields: vec![Ref::Object((place + 1) % count)],
    };
    let parts: Vec<Object> = (0..count).map(part).collect();
    text(&parts)
}
