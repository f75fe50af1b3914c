//! Section 1 and appendix 2.2 of 002: repeating fractions to any base, and
//! their sums; the digits of base 2.

use super::booleans::with_booleans;
use super::methods::{closed, maker, same};
use crate::builder::{Program, call, field, minus_open, new, param, plus, res, this};
use crate::syntax::Expr;

pub const DIGIT: u8 = 4;
pub const REP: u8 = 5;
pub const FACT: u8 = 6;
/// Digit classes come last, that of 0 first.
pub const ZERO: u8 = 7;
/// The 1 of base 2.
pub const ONE: u8 = 8;

pub const CARRY: u8 = 3;
pub const ADD: u8 = 4;
pub const DIGIT_COMPL: u8 = 0x10;
pub const SUM: u8 = 0x12;
pub const SUM_CARRY: u8 = 0x13;
const AND: u8 = 0x14;
const OR: u8 = 0x15;
const XOR: u8 = 0x16;

pub fn digit_of(rep: Expr) -> Expr {
    field(0, rep)
}

pub fn next(rep: Expr) -> Expr {
    field(1, rep)
}

/// The classes, with so many digits.
pub fn with_digits(count: usize) -> Program {
    let mut p = with_booleans();
    p.class(0, &[]);
    p.class(0, &[plus(DIGIT), plus(REP)]);
    p.class(0, &[]);
    for _ in 0..count {
        p.class(DIGIT, &[]);
    }
    p
}

/// Digits of base 2 that add and carry. The base class answers as 0 does.
pub fn add_binary_digits(p: &mut Program) {
    let digit = [plus(DIGIT)];
    let digits = [plus(DIGIT), plus(DIGIT)];
    let mut on_both = |name, params: &[_], on_zero: Expr, on_one: Expr| {
        same(p, (DIGIT, name), DIGIT, params, on_zero);
        same(p, (ONE, name), DIGIT, params, on_one);
    };
    on_both(DIGIT_COMPL, &[], new(ONE, []), new(ZERO, []));
    on_both(AND, &digit, new(ZERO, []), param(0));
    on_both(OR, &digit, param(0), new(ONE, []));
    on_both(XOR, &digit, param(0), call(DIGIT_COMPL, param(0), []));
    let of_rest = |name| call(name, param(0), [param(1)]);
    on_both(SUM_CARRY, &digits, of_rest(AND), of_rest(OR));
    // 1 + a + b mod 2 is the complement of a xor b.
    let odd = call(DIGIT_COMPL, of_rest(XOR), []);
    on_both(SUM, &digits, of_rest(XOR), odd);
}

/// carry and add, over digits that can do sum and sumCarry.
pub fn add_sums(p: &mut Program) {
    let carry = || call(CARRY, next(this()), [next(param(0))]);
    let digits = |name| call(name, digit_of(this()), [digit_of(param(0)), carry()]);
    let body = (digits(SUM_CARRY), new(ZERO, []));
    p.method((REP, CARRY), closed(DIGIT), &[plus(REP)], body);
    let rest = call(ADD, next(this()), [next(param(0))]);
    let body = (new(REP, [digits(SUM), rest]), res());
    let ring = (plus(REP), minus_open(REP));
    p.method((REP, ADD), ring, &[plus(REP)], body);
}

/// Adds a method that makes the digit, then what the method `after` gives.
pub fn add_cell(p: &mut Program, name: u8, digit: u8, after: u8) {
    let rest = call(after, this(), []);
    maker(p, (FACT, name), REP, new(REP, [new(digit, []), rest]));
}

pub fn made(name: u8) -> Expr {
    call(name, new(FACT, []), [])
}
