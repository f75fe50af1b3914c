//! Booleans as classes, and objects that are equal if their classes are.

use super::methods::same;
use crate::builder::{Program, call, new, param, plus, this};
use crate::syntax::Expr;
use std::ops::RangeInclusive;

pub const BOOL: u8 = 1;
pub const TRUE: u8 = 2;
const FALSE: u8 = 3;

pub const AND: u8 = 0x10;
pub const OR: u8 = 0x11;
pub const EQ: u8 = 0x12;
/// IS + class: whether an object is of that class.
const IS: u8 = 0x20;

pub fn yes() -> Expr {
    new(TRUE, [])
}

pub fn no() -> Expr {
    new(FALSE, [])
}

/// Classes 1 Bool, 2 True and 3 False, at the front of a program.
pub fn with_booleans() -> Program {
    let mut p = Program::start();
    p.class(0, &[]);
    p.class(BOOL, &[]);
    p.class(BOOL, &[]);
    p
}

pub fn add_and(p: &mut Program) {
    same(p, (BOOL, AND), BOOL, &[plus(BOOL)], this());
    same(p, (TRUE, AND), BOOL, &[plus(BOOL)], param(0));
}

pub fn add_or(p: &mut Program) {
    same(p, (BOOL, OR), BOOL, &[plus(BOOL)], param(0));
    same(p, (TRUE, OR), BOOL, &[plus(BOOL)], this());
}

/// eq for objects of these classes below `parent`: each asks the other whether
/// it is of its own class.
pub fn add_eq(p: &mut Program, parent: u8, classes: RangeInclusive<u8>) {
    same(p, (parent, EQ), BOOL, &[plus(parent)], no());
    for class in classes {
        same(p, (parent, IS + class), BOOL, &[], no());
        same(p, (class, IS + class), BOOL, &[], yes());
        let asked = call(IS + class, param(0), []);
        same(p, (class, EQ), BOOL, &[plus(parent)], asked);
    }
}
