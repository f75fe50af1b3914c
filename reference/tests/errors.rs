//! "Errors this trade has made", from document 01: a test for each of them.

mod common;

use common::{checked, lines, trial};
use reference::builder::*;
use reference::syntax::{Expr, Type};
use reference::values::{Ref, Value};

/// The ring X = new 1(new 2(X)) as a value.
fn ring() -> Value {
    let inner = Value::new(2, vec![Value::mark(7)]).unwrap();
    Value::new(1, vec![inner]).unwrap().closed(7)
}

#[test]
fn field_selection_unfolds() {
    // The field is Y = new 2(new 1(Y)): its own field is the receiver again.
    let cup = ring().field(0).unwrap();
    assert_eq!(cup.class(), Some(2));
    assert!(cup.field(0).unwrap() == ring());
    assert_eq!(cup.size(), 2);
}

/// Classes 1 and 2, each with a field of the other, a class H (3) whose
/// methods 1 and 2 make the ring of them.
fn ring_program() -> Program {
    let mut p = Program::start();
    let one = p.class(0, &[plus(2)]);
    let two = p.class(0, &[plus(1)]);
    let h = p.class(0, &[]);
    let body = |class, name| (new(class, [call(name, this(), [])]), res());
    p.method((h, 1), (plus(one), minus_open(one)), &[], body(one, 2));
    p.method((h, 2), (plus(two), minus_open(two)), &[], body(two, 1));
    p
}

#[test]
fn field_selection_unfolds_in_a_run() {
    // Field 0 of the ring started at 1 is the ring started at 2.
    let text = ring_program().text(field(0, call(1, new(3, []), [])));
    let report = lines(&["08000200", "0500020101", "0501010100"]);
    assert_eq!(checked(1000, &text), (report, 997));
}

#[test]
fn calls_are_compared_by_value() {
    // H.5(x) calls itself on a copy of x built afresh: new 1(x.f). Only by
    // value is that the same call. 3 calls make the ring, 2 more end it.
    let mut p = ring_program();
    let again = call(5, this(), [new(1, [field(0, param(0))])]);
    let body = (again, new(3, []));
    p.method((3, 5), (plus(3), plus(3)), &[plus(1)], body);
    let ring = call(1, new(3, []), []);
    let text = p.text(call(5, new(3, []), [ring]));
    assert_eq!(
        checked(1000, &text),
        (lines(&["08000300", "05000300"]), 995)
    );
}

#[test]
fn receivers_are_compared_by_value() {
    // H.6() calls itself on a fresh new H(): met again at once.
    let mut p = ring_program();
    let body = (call(6, new(3, []), []), new(0, []));
    p.method((3, 6), (plus(0), plus(0)), &[], body);
    let text = p.text(call(6, new(3, []), []));
    assert_eq!(
        checked(1000, &text),
        (lines(&["08000000", "05000000"]), 998)
    );
}

/// One method `new D(this.m())` over an undetermined m, D's field of type
/// `field_type`.
fn undetermined_in_field(field_type: Type) -> Vec<u8> {
    let mut p = Program::start();
    let h = p.class(0, &[]);
    let d = p.class(0, &[field_type]);
    let round = (call(1, this(), []), res());
    p.method((h, 1), (minus(h), minus(h)), &[], round);
    let wrapped: (Expr, Expr) = (new(d, [call(1, this(), [])]), new(d, [new(h, [])]));
    p.method((h, 2), (plus(d), plus(d)), &[], wrapped);
    p.text(call(2, new(h, []), []))
}

#[test]
fn the_order_of_figure_6_is_not_used() {
    // Figure 6 lets C- below C-?, which new would then read as C+.
    let plus_field = undetermined_in_field(plus(1));
    assert_eq!(checked(1000, &plus_field), (lines(&["0806"]), 1000));
    assert_eq!(trial(1000, &plus_field), (lines(&["05000201FF"]), 997));
    let minus_field = undetermined_in_field(minus(1));
    let report = lines(&["08000200", "05000201FF"]);
    assert_eq!(checked(1000, &minus_field), (report, 997));
}

#[test]
fn the_order_of_figure_6_is_not_used_for_results() {
    // C- does not fit C-?, nor C+? C+; C-? fits C-.
    let method_of = |second: Type| {
        let mut p = Program::start();
        let h = p.class(0, &[]);
        p.method((h, 1), (minus(h), second), &[], (this(), res()));
        checked(9, &p.text(new(h, []))).0
    };
    assert_eq!(method_of(minus_open(1)), lines(&["0806"]));
    assert_eq!(method_of(minus(1)), lines(&["08000100", "05000100"]));
}

#[test]
fn objects_are_numbered_as_they_are_met() {
    // new 3(new 1(), new 2(new 1())): the innermost is built first, the root
    // last; the walk gives root 00, its first field 01, then 02.
    let mut p = Program::start();
    let one = p.class(0, &[]);
    let two = p.class(0, &[plus(0)]);
    let three = p.class(0, &[plus(0), plus(0)]);
    let inner = || new(two, [new(one, [])]);
    let text = p.text(new(three, [new(one, []), inner()]));
    let report = ["08000300", "050003020102", "05010100", "0502020101"];
    assert_eq!(checked(0, &text), (lines(&report), 0));
    // The other way round, depth first: 1 is met inside 2, before field 1.
    let text = p.text(new(three, [inner(), new(one, [])]));
    let report = ["08000300", "050003020102", "0501020102", "05020100"];
    assert_eq!(checked(0, &text), (lines(&report), 0));
}

#[test]
fn depth_first_and_not_level_by_level() {
    // new 3(new 2(new 1()), new 4()): 1 is 02 and 4 is 03.
    let mut p = Program::start();
    let one = p.class(0, &[]);
    let two = p.class(0, &[plus(0)]);
    let three = p.class(0, &[plus(0), plus(0)]);
    let four = p.class(0, &[]);
    let text = p.text(new(three, [new(two, [new(one, [])]), new(four, [])]));
    let report = [
        "08000300",
        "050003020103",
        "0501020102",
        "05020100",
        "05030400",
    ];
    assert_eq!(checked(0, &text), (lines(&report), 0));
}

#[test]
fn the_question_mark_stands_when_the_second_result_is_compared() {
    // new D(this.k()) is D+?; stripped it would fit the second result D+.
    let method_of = |second: Type| {
        let mut p = Program::start();
        let d = p.class(0, &[plus(1)]);
        let h = p.class(0, &[]);
        let ring = (new(d, [call(1, this(), [])]), res());
        p.method((h, 1), (plus(d), minus_open(d)), &[], ring);
        // Its right side could be anything closed; an endless one will do.
        let body = (new(d, [call(1, this(), [])]), call(2, this(), []));
        p.method((h, 2), (plus(d), second), &[], body);
        checked(9, &p.text(call(2, new(h, []), []))).0
    };
    assert_eq!(method_of(plus(1)), lines(&["0806"]));
    assert_eq!(method_of(plus_open(1)), lines(&["08000100", "0500010100"]));
}

#[test]
fn marks_are_equal_only_to_themselves() {
    let over = |mark| Value::new(1, vec![Value::mark(mark)]).unwrap();
    assert!(over(3) == over(3));
    assert!(over(3) != over(4));
    assert!(Value::mark(3) != Value::undetermined());
    assert!(Value::undetermined() == Value::undetermined());
    assert_eq!(Value::mark(3).closed(3).root(), Ref::Undetermined);
    assert_eq!(Value::mark(3).closed(4).root(), Ref::Mark(3));
}
