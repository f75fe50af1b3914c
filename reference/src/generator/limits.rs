//! Programs that end just inside or just outside a limit: calls open at one
//! time, objects in a value, nesting, sums. All of them are accepted.

use super::random::Random;
use crate::builder::{
    Program, call, choose, difference, minus_open, new, number, param, plus, res, sum, this, whole,
};
use crate::syntax::{Expr, Table};

pub fn table(random: &mut Random) -> Table {
    match random.below(5) {
        0 => chain(random),
        1 => ring(random),
        2 => counted(random),
        3 => added(random),
        _ => nested(random),
    }
}

/// Methods that call each other in a row of 14 to 18 calls; the last gives an
/// object or meets the first again.
fn chain(random: &mut Random) -> Table {
    let count = random.between(14, 17) as u8;
    let closing = random.chance(50);
    let mut p = Program::start();
    let h = p.class(0, &[]);
    for name in 1..=count {
        let left = match (name == count, closing) {
            (false, _) => call(name + 1, this(), []),
            (true, false) => new(h, []),
            (true, true) => call(1, this(), []),
        };
        p.method((h, name), (plus(h), plus(h)), &[], (left, this()));
    }
    p.table(call(1, new(h, []), []))
}

/// A ring of 1 to 16 objects of two classes, built by as many methods.
fn ring(random: &mut Random) -> Table {
    let count = random.between(1, 16) as u8;
    let mut p = Program::start();
    let l = p.class(0, &[]);
    let one = p.class(l, &[plus(l)]);
    let two = p.class(l, &[plus(l)]);
    let h = p.class(0, &[]);
    for name in 1..=count {
        let next = if name == count { 1 } else { name + 1 };
        let class = if random.chance(50) { one } else { two };
        let body = (new(class, [call(next, this(), [])]), res());
        p.method((h, name), (plus(class), minus_open(class)), &[], body);
    }
    p.table(call(1, new(h, []), []))
}

/// 26 to 34 objects, one in the other, 5 laid by each call of method 1.
fn nested(random: &mut Random) -> Table {
    let mut p = Program::start();
    let l = p.class(0, &[]);
    let c = p.class(l, &[plus(l)]);
    let h = p.class(0, &[]);
    let wrapped = |inner: Expr, count| (0..count).fold(inner, |inner, _| new(c, [inner]));
    let types = (plus(l), plus(l));
    let body = (wrapped(param(0), 5), param(0));
    p.method((h, 1), types, &[plus(l)], body);
    let five_times = (0..5).fold(param(0), |inner, _| call(1, this(), [inner]));
    p.method((h, 2), types, &[plus(l)], (five_times, param(0)));
    // 25 by method 2, perhaps 5 by method 1, the rest by hand round the last.
    let seed = wrapped(new(l, []), random.below(4));
    let laid = if random.chance(85) {
        call(1, new(h, []), [seed])
    } else {
        seed
    };
    p.table(call(2, new(h, []), [laid]))
}

/// A list of 13 to 17 numbers, counted down by as many calls and one more, two
/// objects laid by each.
fn counted(random: &mut Random) -> Table {
    let mut p = Program::start();
    let l = p.class(0, &[]);
    let c = p.class(l, &[plus(l), whole()]);
    let h = p.class(0, &[]);
    let again = call(1, this(), [difference(param(0), number(1))]);
    let other = match random.below(3) {
        0 => number(random.below(3) as u16),
        1 => sum(param(0), param(0)),
        _ => param(0),
    };
    let laid = new(c, [new(c, [again, param(0)]), other]);
    let left = choose(param(0), laid, new(l, []));
    p.method((h, 1), (plus(l), plus(l)), &[whole()], (left, new(l, [])));
    let start = number(random.between(13, 17) as u16);
    p.table(call(1, new(h, []), [start]))
}

/// Sums of up to six levels that reach 65,535, or just do not.
fn added(random: &mut Random) -> Table {
    let wanted = 65_535 + random.below(3);
    let levels = random.between(1, 5);
    let mut left = wanted;
    let mut expr: Option<Expr> = None;
    for level in 0..=levels {
        let part = match level {
            _ if level == levels => left.min(65_535),
            _ => random.below(left.min(30_000)),
        };
        left -= part;
        let part = number(part as u16);
        expr = Some(match expr {
            None => part,
            Some(before) if random.chance(50) => sum(before, part),
            Some(before) => sum(part, before),
        });
    }
    let p = Program::start();
    p.table(expr.unwrap_or(number(0)))
}
