//! Nested calls: deep plain recursion, and calls that are compared with all
//! open ones before the last is met again. Repeating takes two of the 16
//! calls, so 14 are left.

use super::repeat::{fuel, repeated};
use super::{Times, Workload};
use crate::builder::{Program, call, field, minus, minus_open, new, param, plus, res, this};
use crate::syntax::Expr;

const DEPTH: usize = 14;

pub fn all() -> Vec<Workload> {
    vec![
        names(Times(23, 23)),
        recursion(Times(23, 23)),
        compared(Times(23, 23)),
        compared_in_full(Times(23, 23)),
        compared_copies(Times(3, 11)),
    ]
}

/// Methods of 14 names call each other; nothing else happens.
fn names(times: Times) -> Workload {
    const HOLDER: u8 = 1;
    let mut p = Program::start();
    let holder = plus(p.class(0, &[]));
    for name in 1..=DEPTH as u8 {
        let left = if usize::from(name) == DEPTH {
            this()
        } else {
            call(name + 1, this(), [])
        };
        p.method((HOLDER, name), (holder, holder), &[], (left, this()));
    }
    let start = repeated(&mut p, HOLDER, &[], call(1, this(), []), times);
    let text = p.text(start(new(HOLDER, []), vec![]));
    let spends = fuel(times, DEPTH);
    Workload::checked("recursion by 14 names".to_string(), text, spends, 1)
}

fn recursion(times: Times) -> Workload {
    recursion_to(DEPTH, times)
}

/// One call less deep, for more repeating.
pub fn recursion_of_13(times: Times) -> Workload {
    recursion_to(DEPTH - 1, times)
}

/// A method calls itself on the next object of a chain until its end.
fn recursion_to(depth: usize, times: Times) -> Workload {
    const CHAIN: u8 = 1;
    const LINK: u8 = 2;
    const HOLDER: u8 = 3;
    const DOWN: u8 = 1;
    const FIVE: u8 = 2;
    const ALL: u8 = 3;
    let mut p = Program::start();
    let chain = plus(CHAIN);
    p.class(0, &[]);
    p.class(CHAIN, &[chain]);
    p.class(0, &[]);
    let end = || new(CHAIN, []);
    let mut add = |(owner, name), params: &[_], left| {
        p.method((owner, name), (chain, chain), params, (left, end()));
    };
    add((CHAIN, DOWN), &[], this());
    add((LINK, DOWN), &[], call(DOWN, field(0, this()), []));
    let laid = |count, inner| (0..count).fold(inner, |inner, _| new(LINK, [inner]));
    add((HOLDER, FIVE), &[chain], laid(5, param(0)));
    let five = |inner| call(FIVE, this(), [inner]);
    let all = five(five(laid(depth - 1 - 10, param(0))));
    add((HOLDER, ALL), &[chain], all);
    let work = call(DOWN, param(0), []);
    let start = repeated(&mut p, HOLDER, &[chain], work, times);
    let whole = call(ALL, new(HOLDER, []), [end()]);
    let text = p.text(start(new(HOLDER, []), vec![whole]));
    let spends = 3 + fuel(times, depth);
    Workload::checked("recursion down a chain".to_string(), text, spends, 1)
}

const NODE: u8 = 1;
const COMMON: u8 = 2;
const OTHER: u8 = 3;
const HOLDER: u8 = 4;
const SEARCH: u8 = 1;
const FIVE: u8 = 2;
const CHAIN: u8 = 3;
const LAY: u8 = 0x10;

fn laid(count: usize, inner: Expr) -> Expr {
    (0..count).fold(inner, |inner, _| new(COMMON, [inner]))
}

/// The classes, methods that make a ring of 13 with one object unlike the
/// others, and one that lays 17 objects around its argument.
fn ring_of_13() -> Program {
    let mut p = Program::start();
    let node = plus(NODE);
    p.class(0, &[node]);
    p.class(NODE, &[]);
    p.class(NODE, &[]);
    p.class(0, &[]);
    let mut part = |place, left| {
        let types = (node, minus_open(NODE));
        p.method((HOLDER, LAY + place), types, &[], (left, res()));
    };
    for place in 0..3 {
        part(place, laid(4, call(LAY + place + 1, this(), [])));
    }
    part(3, new(OTHER, [call(LAY, this(), [])]));
    let five = (laid(5, param(0)), param(0));
    p.method((HOLDER, FIVE), (node, node), &[node], five);
    let five = |inner| call(FIVE, this(), [inner]);
    let chain = (five(five(five(laid(2, param(0))))), param(0));
    p.method((HOLDER, CHAIN), (node, node), &[node], chain);
    p
}

fn ring() -> Expr {
    call(LAY, new(HOLDER, []), [])
}

/// search(r) is search(r.next) until the ring comes round: 13 open calls on
/// the left, each compared with all before it, and one on the right.
fn compared(times: Times) -> Workload {
    let mut p = ring_of_13();
    let any = (minus(0), minus(0));
    let left = call(SEARCH, this(), [field(0, param(0))]);
    p.method((HOLDER, SEARCH), any, &[plus(NODE)], (left, param(0)));
    let work = call(SEARCH, this(), [param(0)]);
    let start = repeated(&mut p, HOLDER, &[plus(NODE)], work, times);
    let text = p.text(start(new(HOLDER, []), vec![ring()]));
    let spends = 5 + fuel(times, DEPTH);
    Workload::checked("compared: ring of 13".to_string(), text, spends, 13)
}

/// The same with a chain of 32 objects before the ring among the arguments:
/// it is equal in every call, so that each comparison goes through it.
fn compared_in_full(times: Times) -> Workload {
    let mut p = ring_of_13();
    let any = (minus(0), minus(0));
    let left = call(SEARCH, this(), [param(0), field(0, param(1))]);
    let two = [plus(NODE), plus(NODE)];
    p.method((HOLDER, SEARCH), any, &two, (left, param(0)));
    let work = call(SEARCH, this(), [param(0), param(1)]);
    let start = repeated(&mut p, HOLDER, &two, work, times);
    let holder = || new(HOLDER, []);
    let chain = call(CHAIN, holder(), [laid(2, ring())]);
    let text = p.text(start(holder(), vec![chain, ring()]));
    let spends = 5 + 4 + 5 + fuel(times, DEPTH);
    Workload::checked("compared: ring and 32 alike".to_string(), text, spends, 32)
}

/// search(r, ..) on a receiver and two arguments of 28 objects that are equal in
/// every call, but new copies: each was put into an object and taken out again.
fn compared_copies(times: Times) -> Workload {
    let mut p = ring_of_13();
    let node = plus(NODE);
    let holding = p.class(0, &[node, minus(0)]);
    let any = (minus(0), minus(0));
    let copied = |value| field(0, new(holding, [value, new(HOLDER, [])]));
    let arguments = [copied(param(0)), copied(param(1)), field(0, param(2))];
    let left = call(SEARCH, copied(this()), arguments);
    p.method((NODE, SEARCH), any, &[node; 3], (left, new(HOLDER, [])));
    let work = call(SEARCH, param(0), [param(0), param(0), param(1)]);
    let start = repeated(&mut p, HOLDER, &[node, node], work, times);
    let five = |inner| call(FIVE, new(HOLDER, []), [inner]);
    let chain = five(five(five(ring())));
    let text = p.text(start(new(HOLDER, []), vec![chain, ring()]));
    let spends = 5 + 3 + 5 + fuel(times, DEPTH);
    Workload::checked("compared: copies of 28".to_string(), text, spends, 1)
}
