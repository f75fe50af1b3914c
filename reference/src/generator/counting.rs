//! Left sides that count: a choice by parameter 0, where the first branch has a
//! call of the method itself with another number.

use super::exprs::{Maker, ONLY_PLUS, Want};
use super::numbers::turned;
use super::typed::left_want;
use crate::classes::{class_fits, fields};
use crate::syntax::{Expr, MINUS, Method, NUMBER};

/// The left side of a method whose parameter 0 is a number, at most `room` deep.
pub fn counting(maker: &mut Maker, method: &Method, room: usize) -> Option<Expr> {
    let next = turned(maker.random, Expr::Param(0));
    let mut arguments = vec![next];
    // Parameters that stay as they are let a call be met again.
    arguments.extend((1..method.params.len()).map(|place| Expr::Param(place as u8)));
    let again = Expr::Call(method.name, Box::new(Expr::This), arguments);
    let step = match method.first.class {
        NUMBER => tally(maker, again)?,
        _ if maker.random.chance(30) => again,
        _ => wrapped(maker, method, again)?,
    };
    // Without a choice the call goes on until it is met again, or a limit is.
    if maker.random.chance(15) {
        return Some(step);
    }
    let end = end(maker, method, room)?;
    let number = Box::new(Expr::Param(0));
    Some(Expr::Choose(number, Box::new(step), Box::new(end)))
}

/// A sum or a difference of the answer and a number.
fn tally(maker: &mut Maker, again: Expr) -> Option<Expr> {
    let (class, tags) = (NUMBER, ONLY_PLUS);
    let other = maker.make(Want { class, tags }, 3)?;
    let (other, again) = (Box::new(other), Box::new(again));
    Some(match maker.random.below(10) {
        0..6 => Expr::Sum(other, again),
        6..8 => Expr::Sum(again, other),
        _ => Expr::Difference(again, other),
    })
}

/// A new object with the answer in a field that it fits, and numbers, mostly
/// parameter 0, in those of numbers.
fn wrapped(maker: &mut Maker, method: &Method, again: Expr) -> Option<Expr> {
    let table = maker.scope.table;
    let mut fitting = Vec::new();
    for class in 1..=table.classes.len() as u8 {
        let into = fields(table, class).iter().position(|field| {
            class_fits(table, method.second.class, field.class)
                && (field.tag == MINUS || method.second.tag != MINUS)
        });
        if let Some(place) = into
            && class_fits(table, class, method.first.class)
        {
            fitting.push((class, place));
        }
    }
    let &(class, place) = maker.random.pick(&fitting)?;
    let Expr::New(_, mut values) = maker.object_of(class, true, 3)? else {
        return None;
    };
    for (value, field) in values.iter_mut().zip(fields(table, class)) {
        if field.class == NUMBER && maker.random.chance(80) {
            *value = Expr::Param(0);
        }
    }
    values[place] = again;
    Some(Expr::New(class, values))
}

/// What is given for 0: mostly plain.
fn end(maker: &mut Maker, method: &Method, room: usize) -> Option<Expr> {
    let want = left_want(method);
    let room = if maker.random.chance(70) { 2 } else { room - 1 };
    maker.make(want, room)
}
