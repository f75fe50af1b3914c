//! The order of evaluation, fuel, depth and size, mostly on trial, where the
//! rules show without types in the way.

mod common;

use common::{lines, trial};
use reference::builder::*;
use reference::syntax::Expr;
use reference::values::Value;

/// Class 1 E; class 2 C with a field; class 3 H with methods: 1 gives an E,
/// 2 (x) gives x, 3 loops without meeting itself, 9 is undetermined.
fn base() -> Program {
    let mut p = Program::start();
    let e = p.class(0, &[]);
    let c = p.class(0, &[minus(0)]);
    let h = p.class(0, &[]);
    let o = (minus(0), minus(0));
    p.method((h, 1), o, &[], (new(e, []), this()));
    p.method((h, 2), o, &[minus(0)], (param(0), this()));
    let grown = call(3, this(), [new(c, [param(0)])]);
    p.method((h, 3), o, &[minus(0)], (grown, this()));
    p.method((h, 9), o, &[], (call(9, this(), []), res()));
    p
}

fn outcome(fuel: u16, main: Expr) -> (String, u16) {
    trial(fuel, &base().text(main))
}

fn stuck(left: u16) -> (String, u16) {
    (lines(&["0701"]), left)
}

fn h() -> Expr {
    new(3, [])
}

fn call_e() -> Expr {
    call(1, h(), [])
}

#[test]
fn stuck_receivers() {
    assert_eq!(outcome(9, field(0, new(1, []))), stuck(9));
    assert_eq!(outcome(9, field(1, new(2, [h()]))), stuck(9));
    assert_eq!(outcome(9, field(0, call(9, h(), []))), stuck(7));
    assert_eq!(outcome(9, call(1, call(9, h(), []), [])), stuck(7));
    assert_eq!(outcome(9, call(1, new(1, []), [])), stuck(9));
    assert_eq!(outcome(9, call(8, h(), [])), stuck(9));
    assert_eq!(outcome(9, this()), stuck(9));
}

#[test]
fn a_bad_call_is_stuck_before_its_arguments() {
    // The arguments would spend fuel; none is spent.
    assert_eq!(outcome(9, call(1, h(), [call_e()])), stuck(9));
    assert_eq!(outcome(9, call(7, h(), [call_e()])), stuck(9));
    assert_eq!(outcome(9, call(2, h(), [call_e(), call_e()])), stuck(9));
    // The receiver has been evaluated.
    assert_eq!(outcome(9, call(1, call_e(), [call_e()])), stuck(8));
}

#[test]
fn a_bad_new_is_stuck_before_its_values() {
    assert_eq!(outcome(9, new(1, [call_e()])), stuck(9));
    assert_eq!(outcome(9, new(2, [call_e(), call_e()])), stuck(9));
}

#[test]
fn arguments_come_before_the_unit_of_fuel() {
    let nested = || call(2, h(), [call_e()]);
    assert_eq!(outcome(1, nested()), (lines(&["0702"]), 0));
    assert_eq!(outcome(2, nested()), (lines(&["05000100"]), 0));
    assert_eq!(outcome(0, call(2, h(), [this()])), stuck(0));
    assert_eq!(outcome(0, call(2, h(), [h()])), (lines(&["0702"]), 0));
    // A new object needs none.
    assert_eq!(outcome(0, h()), (lines(&["05000300"]), 0));
}

#[test]
fn left_to_right() {
    // The first that gives no value decides: stuck after one call, or out of
    // fuel at the second.
    let mut p = base();
    let two = p.class(0, &[minus(0), minus(0)]);
    let run = |fuel, values| trial(fuel, &p.text(new(two, values)));
    assert_eq!(run(5, [call_e(), this()]), stuck(4));
    assert_eq!(run(5, [this(), call_e()]), stuck(5));
    assert_eq!(run(0, [call_e(), this()]), (lines(&["0702"]), 0));
    assert_eq!(run(0, [this(), call_e()]), stuck(0));
}

#[test]
fn the_sixteenth_call_is_the_last_one_open() {
    assert_eq!(outcome(1000, call(3, h(), [h()])), (lines(&["0703"]), 983));
    assert_eq!(outcome(16, call(3, h(), [h()])), (lines(&["0702"]), 0));
}

#[test]
fn right_sides_count_as_open_but_are_not_met_again() {
    // 1: this.1() with this.1(): the first call opens its left side, every
    // later one meets it and opens its right side, until the 17th.
    let mut p = Program::start();
    let h = p.class(0, &[]);
    let again = || call(1, this(), []);
    p.method((h, 1), (minus(h), minus(h)), &[], (again(), again()));
    let text = p.text(call(1, new(h, []), []));
    assert_eq!(trial(1000, &text), (lines(&["0703"]), 983));
}

#[test]
fn a_right_side_opens_no_left_call() {
    // 1: this.1() with this.2(); 2: this.2() with res. While the right side
    // of 1 runs, 2 is a fresh call: undetermined inside, and so outside.
    let mut p = Program::start();
    let h = p.class(0, &[]);
    let o = (minus(h), minus(h));
    p.method((h, 1), o, &[], (call(1, this(), []), call(2, this(), [])));
    p.method((h, 2), o, &[], (call(2, this(), []), res()));
    let text = p.text(call(1, new(h, []), []));
    assert_eq!(trial(1000, &text), (lines(&["06"]), 996));
}

#[test]
fn closed_calls_are_forgotten() {
    // The same call twice, one after the other: both evaluate the left side.
    let mut p = base();
    let two = p.class(0, &[minus(0), minus(0)]);
    let text = p.text(new(two, [call_e(), call_e()]));
    assert_eq!(trial(9, &text), (lines(&["050004020101", "05010100"]), 7));
}

#[test]
fn an_outer_mark_passes_through_an_inner_call() {
    // 1: new C(this.2()) with res; 2: this.1() with this. X = new C(Y = X).
    let mut p = Program::start();
    let c = p.class(0, &[minus(0)]);
    let h = p.class(0, &[]);
    let o = (minus(0), minus(0));
    p.method((h, 1), o, &[], (new(c, [call(2, this(), [])]), res()));
    p.method((h, 2), o, &[], (call(1, this(), []), this()));
    let text = p.text(call(1, new(h, []), []));
    assert_eq!(trial(9, &text), (lines(&["0500010100"]), 6));
}

#[test]
fn a_mark_is_no_receiver() {
    // 1: this.1().f with res: the inner call gives the mark itself.
    let mut p = Program::start();
    let c = p.class(0, &[minus(0)]);
    let o = (minus(0), minus(0));
    p.method((c, 1), o, &[], (field(0, call(1, this(), [])), res()));
    let text = p.text(call(1, new(c, [new(0, [])]), []));
    assert_eq!(trial(9, &text), stuck(7));
}

#[test]
fn a_ring_under_construction_can_be_too_large() {
    // 33 objects of one class round a mark are 33 distinct objects, though
    // closed they would be one; 32 pass and close to one.
    let rings = |objects: usize| {
        let mut value = Some(Value::mark(0));
        for _ in 0..objects {
            value = value.and_then(|inner| Value::new(1, vec![inner]));
        }
        value.map(|value| value.closed(0))
    };
    let ring = Value::new(1, vec![Value::mark(1)]).unwrap().closed(1);
    assert!(rings(32) == Some(ring));
    assert_eq!(rings(32).unwrap().size(), 1);
    assert!(rings(33).is_none());
}

#[test]
fn equal_objects_count_once() {
    // A full tree, 12 deep: 2^12 paths, 12 distinct objects.
    let mut tree = Value::new(1, vec![]).unwrap();
    for _ in 1..12 {
        tree = Value::new(2, vec![tree.clone(), tree]).unwrap();
    }
    assert_eq!(tree.size(), 12);
    let text = base().text(new(2, [call(9, h(), [])]));
    assert_eq!(trial(9, &text), (lines(&["05000201FF"]), 7));
}

#[test]
fn all_the_fuel_a_session_can_have() {
    // 16 methods; each but the last makes a pair of two calls of the next, so
    // 1 + 2 + 4 + .. + 2^15 = 65,535 calls, 16 deep, and 16 distinct objects.
    let mut p = Program::start();
    let h = p.class(0, &[]);
    let pair = p.class(0, &[minus(0), minus(0)]);
    for name in 1..=16 {
        let next = || call(name + 1, this(), []);
        let left = match name {
            16 => this(),
            _ => new(pair, [next(), next()]),
        };
        p.method((h, name), (minus(0), minus(0)), &[], (left, this()));
    }
    let text = p.text(call(1, new(h, []), []));
    let mut report: Vec<String> = (0..15)
        .map(|n| format!("05{n:02X}0202{0:02X}{0:02X}", n + 1))
        .collect();
    report.push("050F0100".to_string());
    let report: Vec<&str> = report.iter().map(String::as_str).collect();
    assert_eq!(trial(65_535, &text), (lines(&report), 0));
    assert_eq!(trial(65_534, &text), (lines(&["0702"]), 0));
}
