//! The small examples of sections 3 and 4 of 002.

use super::common::{checked, lines, trial};
use reference::builder::*;

#[test]
fn figure_4_with_a_new_object_on_the_right() {
    // m1 {this.m2() with new A()}: new C(new A()), no ring. m1's results are
    // C- with Object-, since new A() is no C.
    let mut p = Program::start();
    let c = p.class(0, &[minus(0)]);
    let a = p.class(0, &[]);
    let body = (call(2, this(), []), new(a, []));
    p.method((a, 1), (minus(c), minus(0)), &[], body);
    let body = (new(c, [call(1, this(), [])]), res());
    p.method((a, 2), (plus(c), minus_open(c)), &[], body);
    let text = p.text(call(1, new(a, []), []));
    let report = lines(&["08000103", "0500010101", "05010200"]);
    assert_eq!(checked(1000, &text), (report, 997));
}

#[test]
fn section_4_a_guarded_ring() {
    // C+ with C-? m() {new C(this.m()) with res}, C's field C+: well typed.
    let mut p = Program::start();
    let c = p.class(0, &[plus(1)]);
    let h = p.class(0, &[]);
    let body = (new(c, [call(1, this(), [])]), res());
    p.method((h, 1), (plus(c), minus_open(c)), &[], body);
    let text = p.text(call(1, new(h, []), []));
    assert_eq!(
        checked(1000, &text),
        (lines(&["08000100", "0500010100"]), 998)
    );
}

#[test]
fn section_4_a_field_of_an_open_value() {
    // m() {new C(this.m().f) with res} cannot be typed, whatever f's type;
    // the run asks the mark for its field.
    for field_type in [plus(1), minus(1)] {
        let mut p = Program::start();
        let c = p.class(0, &[field_type]);
        let h = p.class(0, &[]);
        let body = (new(c, [field(0, call(1, this(), []))]), res());
        p.method((h, 1), (plus(c), minus_open(c)), &[], body);
        let text = p.text(call(1, new(h, []), []));
        assert_eq!(checked(1000, &text), (lines(&["0806"]), 1000));
        assert_eq!(trial(1000, &text), (lines(&["0701"]), 998));
    }
}

#[test]
fn section_3_three_ways_to_write_one_value() {
    // new C(Y = X = new C(new C(X))), Y = new C(X = new C(Y)), Z = new C(Z):
    // as arguments they make one call. same(x, y) puts its arguments side by
    // side in a pair, where equal ones have one number.
    let mut p = Program::start();
    let c = p.class(0, &[plus(1)]);
    let h = p.class(0, &[]);
    let three = p.class(0, &[plus(c), plus(c), plus(c)]);
    let ring = (plus(c), minus_open(c));
    let step = |name| (new(c, [call(name, this(), [])]), res());
    p.method((h, 1), ring, &[], step(2));
    p.method((h, 2), ring, &[], step(1));
    p.method((h, 3), ring, &[], step(3));
    let make = |name| call(name, new(h, []), []);
    let text = p.text(new(three, [new(c, [make(1)]), make(2), make(3)]));
    let report = lines(&["08000300", "05000303010101", "0501010101"]);
    assert_eq!(checked(1000, &text), (report, 992));
}
