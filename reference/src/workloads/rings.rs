//! Rings of so many objects, each leading to the next, all of one class but
//! one, so that no two of them are equal; or one of each so many, so that the
//! ring closes to fewer objects.

use super::laying::{Row, calls_to_lay};
use super::repeat::{fuel, repeated};
use super::{ONCE, Times, Workload};
use crate::builder::{Program, call, field, minus, new, param, plus, this};

const NODE: u8 = 1;
const COMMON: u8 = 2;
const OTHER: u8 = 3;
const HOLDER: u8 = 4;

/// LAY + i lays the objects from 4 i on.
const LAY: u8 = 0x10;
const BUILT: u8 = 1;
const HOP: u8 = 2;
const AROUND: u8 = 3;

/// The classes, and methods that build a ring: 4 objects a call, one of each
/// `period` unlike the others.
fn building(objects: usize, period: usize) -> Program {
    let mut p = Program::start();
    p.class(0, &[plus(NODE)]);
    p.class(NODE, &[]);
    p.class(NODE, &[]);
    p.class(0, &[]);
    let row = Row {
        holder: HOLDER,
        name: LAY,
        base: NODE,
        params: &[],
    };
    let other = period.min(4) - 1;
    let class = |place: usize| match place % period == other {
        true => OTHER,
        false => COMMON,
    };
    let classes: Vec<u8> = (0..objects).map(class).collect();
    row.ring(&mut p, &classes, |class, next| new(class, [next]));
    p
}

/// One call for each four objects, and the one that is met again.
fn calls_to_build(objects: usize) -> usize {
    calls_to_lay(objects) + 1
}

/// A ring of 1 to 32 objects, closed by the call that is met again.
pub fn ring_built(objects: usize, times: Times) -> Workload {
    if times == ONCE {
        let text = building(objects, objects).text(call(LAY, new(HOLDER, []), []));
        let name = format!("ring of {objects}, built once");
        return Workload::checked(name, text, calls_to_build(objects), objects);
    }
    let name = format!("ring of {objects}, built");
    built(name, objects, objects, times)
}

/// A ring of 32 objects, of which those a period apart are equal.
pub fn ring_closing_to(period: usize, times: Times) -> Workload {
    let name = format!("ring of 32, closes to {period}");
    built(name, 32, period, times)
}

fn built(name: String, objects: usize, period: usize, times: Times) -> Workload {
    let mut p = building(objects, period);
    // In a body the ring counts as open; this method's answer does not.
    let any = (minus(0), minus(0));
    p.method((HOLDER, BUILT), any, &[], (call(LAY, this(), []), this()));
    let start = repeated(&mut p, HOLDER, &[], call(BUILT, this(), []), times);
    let text = p.text(start(new(HOLDER, []), vec![]));
    let spends = fuel(times, calls_to_build(objects) + 1);
    Workload::checked(name, text, spends, period)
}

/// A ring of 1 to 32 objects, built once, then gone round: 20 fields a time.
pub fn ring_walked(objects: usize, times: Times) -> Workload {
    let mut p = building(objects, objects);
    let node = (plus(NODE), plus(NODE));
    let hop = (0..5).fold(this(), |node, _| field(0, node));
    p.method((NODE, HOP), node, &[], (hop, this()));
    let around = (0..4).fold(this(), |node, _| call(HOP, node, []));
    p.method((NODE, AROUND), node, &[], (around, this()));
    let work = call(AROUND, param(0), []);
    let start = repeated(&mut p, HOLDER, &[plus(NODE)], work, times);
    let built = call(LAY, new(HOLDER, []), []);
    let text = p.text(start(new(HOLDER, []), vec![built]));
    let name = format!("ring of {objects}, walked");
    let spends = calls_to_build(objects) + fuel(times, 5);
    Workload::checked(name, text, spends, objects)
}
