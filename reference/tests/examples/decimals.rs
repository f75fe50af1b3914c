//! Section 1 and appendix 2.2 of 002: repeating decimals, to base 2 in full
//! and to base 10 for the digits its examples need.

use super::booleans::{NO, YES};
use super::common::{checked, lines};
use reference::builder::*;
use reference::examples::booleans::{BOOL, no, yes};
use reference::examples::fractions::*;
use reference::examples::methods::{closed, maker, same};
use reference::syntax::Expr;

const COMPL: u8 = 1;
const IS_ZERO: u8 = 2;
const ZERO_THEN: u8 = 0x11;

/// Fractions with compl and isZero too, over digits that can do digitCompl, sum
/// and sumCarry; zeroThen is here, as 0 answers it. `count` digit classes.
fn base(count: usize) -> Program {
    let mut p = with_digits(count);
    add_sums(&mut p);
    let compl = call(COMPL, next(this()), []);
    let digit = call(DIGIT_COMPL, digit_of(this()), []);
    maker(&mut p, (REP, COMPL), REP, new(REP, [digit, compl]));
    let all = call(ZERO_THEN, digit_of(this()), [this()]);
    p.method((REP, IS_ZERO), closed(BOOL), &[], (all, yes()));
    let rest = call(IS_ZERO, next(param(0)), []);
    same(&mut p, (DIGIT, ZERO_THEN), BOOL, &[plus(REP)], rest);
    p
}

/// Digits of base 2: class 7 is 0, class 8 is 1.
fn binary() -> Program {
    let mut p = base(2);
    add_binary_digits(&mut p);
    same(&mut p, (ONE, ZERO_THEN), BOOL, &[plus(REP)], no());
    p
}

/// Binary with factory methods: 1 is 0.000.., 2 is 1/3 = 0.(01), 3 is
/// 2/3 = 0.(10), 4 is 0.111.. .
fn binary_numbers() -> Program {
    let mut p = binary();
    add_cell(&mut p, 1, ZERO, 1);
    add_cell(&mut p, 2, ZERO, 3);
    add_cell(&mut p, 3, ONE, 2);
    add_cell(&mut p, 4, ONE, 4);
    p
}

fn answer(p: &Program, main: Expr) -> String {
    checked(1000, &p.text(main)).0
}

/// 0.ddd..: one cell and its digit.
fn constant(digit: &str) -> String {
    lines(&["08000500", "050005020100", &format!("0501{digit}00")])
}

/// 0.(de): two cells, their digits at 01 and 03.
fn pair(first: &str, second: &str) -> String {
    let digit = |number: &str, class: &str| format!("05{number}{class}00");
    let (one, three) = (digit("01", first), digit("03", second));
    lines(&["08000500", "050005020102", &one, "050205020300", &three])
}

#[test]
fn zero_and_is_zero() {
    let p = binary_numbers();
    assert_eq!(answer(&p, made(1)), constant("07"));
    let is_zero = |number| answer(&p, call(IS_ZERO, number, []));
    assert_eq!(is_zero(made(1)), lines(&["08000100", YES]));
    assert_eq!(is_zero(made(2)), lines(&["08000100", NO]));
    let zero_then_one = new(REP, [new(ZERO, []), made(4)]);
    assert_eq!(is_zero(zero_then_one), lines(&["08000100", NO]));
}

#[test]
fn binary_complements() {
    // 1 - 1/3 = 2/3, and 1 - 0 = 0.111..; the first digit of 2/3 is 1.
    let p = binary_numbers();
    assert_eq!(answer(&p, call(COMPL, made(2), [])), pair("08", "07"));
    assert_eq!(answer(&p, call(COMPL, made(1), [])), constant("08"));
}

#[test]
fn binary_sums() {
    // 1/3 + 2/3 = 0.111..: every place has one 1 and no carry.
    // 1/3 + 1/3 = 2/3: at even places 1 + 1 carries into the odd ones.
    // 2/3 + 0 = 2/3, and 0.111.. + 0.111.. = 1.111.., without its carry.
    let p = binary_numbers();
    let sum = |one, two| answer(&p, call(ADD, one, [two]));
    assert_eq!(sum(made(2), made(3)), constant("08"));
    assert_eq!(sum(made(2), made(2)), pair("08", "07"));
    assert_eq!(sum(made(3), made(1)), pair("08", "07"));
    assert_eq!(sum(made(4), made(4)), constant("08"));
}

#[test]
fn binary_carries() {
    // 1/3 + 1/3 < 1; 2/3 + 2/3 > 1; 1/3 + 2/3 carries nothing, as 002 says
    // of sums that no pair of digits carries by itself.
    let p = binary_numbers();
    let carry = |one, two| answer(&p, call(CARRY, one, [two]));
    assert_eq!(carry(made(2), made(2)), lines(&["08000400", "05000700"]));
    assert_eq!(carry(made(3), made(3)), lines(&["08000400", "05000800"]));
    assert_eq!(carry(made(2), made(3)), lines(&["08000400", "05000700"]));
}

/// The digits 002's decimal examples need: 0, 1, 2, 4, 5, 8, 9, classes 7 on.
const TENS: [u8; 7] = [0, 1, 2, 4, 5, 8, 9];

fn ten(digit: u8) -> u8 {
    ZERO + TENS.iter().position(|&other| other == digit).unwrap() as u8
}

/// Complements to 9 where the digit has one here, and 8 + 1 and 8 + 2, with
/// carry: 8.sum(d, c) asks d for 8 + d + c, which asks c.
fn decimal() -> Program {
    const PLUS_8: u8 = 0x20;
    const PLUS_9: u8 = 0x22;
    let mut p = base(TENS.len());
    let zero = || new(ten(0), []);
    let digits = [plus(DIGIT), plus(DIGIT)];
    let digit = [plus(DIGIT)];
    same(&mut p, (DIGIT, DIGIT_COMPL), DIGIT, &[], this());
    for one in [1, 4, 5, 8] {
        same(
            &mut p,
            (ten(one), DIGIT_COMPL),
            DIGIT,
            &[],
            new(ten(9 - one), []),
        );
    }
    for (name, plus_8) in [(SUM, PLUS_8), (SUM_CARRY, PLUS_8 + 1)] {
        same(&mut p, (DIGIT, name), DIGIT, &digits, zero());
        let asked = call(plus_8, param(0), [param(1)]);
        same(&mut p, (ten(8), name), DIGIT, &digits, asked);
        same(&mut p, (DIGIT, plus_8), DIGIT, &digit, zero());
    }
    // 8 + 1 + c is 9 or 10: it carries c. 8 + 2 + c is 10 + c: it carries 1.
    let nine = call(PLUS_9, param(0), []);
    same(&mut p, (ten(1), PLUS_8), DIGIT, &digit, nine);
    same(&mut p, (ten(1), PLUS_8 + 1), DIGIT, &digit, param(0));
    same(&mut p, (ten(2), PLUS_8), DIGIT, &digit, param(0));
    same(&mut p, (ten(2), PLUS_8 + 1), DIGIT, &digit, new(ten(1), []));
    same(&mut p, (DIGIT, PLUS_9), DIGIT, &[], new(ten(9), []));
    same(&mut p, (ten(1), PLUS_9), DIGIT, &[], zero());
    p
}

#[test]
fn the_complement_of_7_over_45() {
    // 0.1555.. becomes 0.8444..: two cells, the second its own next. Digit 8
    // is class 0C (sixth), digit 4 class 0A (fourth).
    let mut p = decimal();
    add_cell(&mut p, 1, ten(1), 2);
    add_cell(&mut p, 2, ten(5), 2);
    let report = [
        "08000500",
        "050005020102",
        "05010C00",
        "050205020302",
        "05030A00",
    ];
    assert_eq!(answer(&p, call(COMPL, made(1), [])), lines(&report));
}

#[test]
fn the_carry_and_sum_of_8_over_9_and_121_over_999() {
    // 888/999 + 121/999 = 1009/999 = 1 + 10/999: carry 1 (002 says so too)
    // and digits 0, 1, 0 for ever. Three cells: 00, 02, 04; 0 is class 07 at
    // number 01, 1 is class 08 at number 03.
    let mut p = decimal();
    add_cell(&mut p, 1, ten(8), 1);
    add_cell(&mut p, 2, ten(1), 3);
    add_cell(&mut p, 3, ten(2), 4);
    add_cell(&mut p, 4, ten(1), 2);
    let carry = call(CARRY, made(1), [made(2)]);
    assert_eq!(answer(&p, carry), lines(&["08000400", "05000800"]));
    let cells = [
        "050005020102",
        "05010700",
        "050205020304",
        "05030800",
        "050405020100",
    ];
    let report = format!("{}{}", lines(&["08000500"]), lines(&cells));
    assert_eq!(answer(&p, call(ADD, made(1), [made(2)])), report);
}
