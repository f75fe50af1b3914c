//! Work done again and again in one run, two calls deep: an outer method calls
//! an inner one, which calls the work, each many times in one expression.

use super::Times;
use crate::builder::{Program, call, minus, param, this};
use crate::syntax::{Expr, Type};

const THEN: u8 = 0xF0;
const INNER: u8 = 0xF1;
const OUTER: u8 = 0xF2;
/// For more than 23 times: an outer method that calls others like it.
const OUTERMOST: u8 = 0xF3;
const MOST: usize = 23;

/// Adds to class `holder` the methods that do `work`, an expression over
/// `this` and these parameters, and gives the call that starts them. It has
/// as few of them as the times need: each takes one of the 16 open calls.
pub fn repeated(
    p: &mut Program,
    holder: u8,
    params: &[Type],
    work: Expr,
    times: Times,
) -> impl Fn(Expr, Vec<Expr>) -> Expr + use<> {
    let any = (minus(0), minus(0));
    let three = [minus(0); 3];
    p.method((holder, THEN), any, &three, (param(2), param(2)));
    let mut body = work;
    let mut start = INNER;
    for (name, times) in levels(times) {
        p.method((holder, name), any, params, (many(&body, times), this()));
        let arguments = (0..params.len() as u8).map(param).collect();
        body = Expr::Call(name, Box::new(this()), arguments);
        start = name;
    }
    move |receiver, arguments| Expr::Call(start, Box::new(receiver), arguments)
}

/// The methods needed, innermost first, and how often each does the one
/// before it: times over 23 become a product of two odd numbers that are not.
fn levels(Times(outer, inner): Times) -> Vec<(u8, usize)> {
    let mut levels = vec![(INNER, inner)];
    if outer > MOST {
        let lower = outer.div_ceil(MOST) | 1;
        levels.extend([(OUTER, lower), (OUTERMOST, outer.div_ceil(lower) | 1)]);
    } else if outer > 1 {
        levels.push((OUTER, outer));
    }
    levels
}

/// The units spent when one piece of work spends `work`.
pub fn fuel(times: Times, work: usize) -> usize {
    let levels = levels(times).into_iter();
    levels.fold(work, |each, (_, times)| 1 + times / 2 + times * each)
}

/// An expression that evaluates another an odd number of times, in threes,
/// each three given to THEN, which answers with the last.
fn many(work: &Expr, times: usize) -> Expr {
    assert!(times % 2 == 1 && times <= MOST);
    if times == 1 {
        return work.clone();
    }
    let third = (times / 3) | 1;
    let parts = [third, third, times - 2 * third];
    call(THEN, this(), parts.map(|times| many(work, times)))
}
