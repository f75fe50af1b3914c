//! Forms that many methods of the examples have.

use crate::builder::{Program, minus_open, plus, res};
use crate::syntax::{Expr, Type};

/// Closed results of one class: C+ with C+.
pub fn closed(class: u8) -> (Type, Type) {
    (plus(class), plus(class))
}

/// A method C+ with C+ whose two sides are the same.
pub fn same(p: &mut Program, method: (u8, u8), class: u8, params: &[Type], body: Expr) {
    p.method(method, closed(class), params, (body.clone(), body));
}

/// A method C+ with C-? that makes an object which may lead back to itself.
pub fn maker(p: &mut Program, method: (u8, u8), class: u8, left: Expr) {
    let ring = (plus(class), minus_open(class));
    p.method(method, ring, &[], (left, res()));
}
