//! Refusals 6 and 7: each typing rule with programs just inside and just
//! outside it.

mod common;

use reference::builder::*;
use reference::calls::check;
use reference::refusals::Refusal;
use reference::syntax::{Expr, Type};

/// Classes: 1 L, 2 E below L, 3 P below L with field L+, 4 M below L with
/// field L-, 5 H. H has methods 1 to 6, all sound:
/// 1: L+ with L+; 2: L+ with L+?; 3: L+ with L-?; 4: L- with L-;
/// 5 (x: L+): L+ with L+; 6 (x: L-): L- with L-.
fn base() -> Program {
    let mut p = Program::start();
    let l = p.class(0, &[]);
    let e = p.class(l, &[]);
    p.class(l, &[plus(l)]);
    p.class(l, &[minus(l)]);
    let h = p.class(0, &[]);
    p.method((h, 1), (plus(l), plus(l)), &[], (new(e, []), new(e, [])));
    let closed = (new(e, []), new(e, []));
    p.method((h, 2), (plus(l), plus_open(l)), &[], closed);
    p.method((h, 3), (plus(l), minus_open(l)), &[], (new(e, []), res()));
    p.method(
        (h, 4),
        (minus(l), minus(l)),
        &[],
        (call(4, this(), []), res()),
    );
    let back = || (param(0), param(0));
    p.method((h, 5), (plus(l), plus(l)), &[plus(l)], back());
    p.method((h, 6), (minus(l), minus(l)), &[minus(l)], back());
    p
}

const H: u8 = 5;

fn main_type(main: Expr) -> Option<Type> {
    match check(&base().text(main)) {
        Ok(type_) => Some(type_),
        Err(refusal) => {
            assert_eq!(refusal, Refusal::Main);
            None
        }
    }
}

/// Whether a method of these results and this body passes, owner H, with one
/// parameter of type L+ and one of type L-.
fn typed(results: (Type, Type), body: (Expr, Expr)) -> bool {
    let mut p = base();
    p.method((H, 9), results, &[plus(1), minus(1)], body);
    match check(&p.text(new(0, []))) {
        Ok(_) => true,
        Err(refusal) => {
            assert_eq!(refusal, Refusal::Method);
            false
        }
    }
}

fn e() -> Expr {
    new(2, [])
}

fn h() -> Expr {
    new(H, [])
}

#[test]
fn new_objects_in_main() {
    assert_eq!(main_type(new(0, [])), Some(plus(0)));
    assert_eq!(main_type(new(3, [e()])), Some(plus(3)));
    assert_eq!(main_type(new(3, [])), None);
    assert_eq!(main_type(new(2, [e()])), None);
    assert_eq!(main_type(new(3, [h()])), None);
    // A minus value fits a minus field and no plus one.
    assert_eq!(main_type(new(4, [call(4, h(), [])])), Some(plus(4)));
    assert_eq!(main_type(new(3, [call(4, h(), [])])), None);
}

#[test]
fn fields_in_main() {
    assert_eq!(main_type(field(0, new(3, [e()]))), Some(plus(1)));
    assert_eq!(main_type(field(0, new(4, [e()]))), Some(minus(1)));
    assert_eq!(main_type(field(1, new(3, [e()]))), None);
    assert_eq!(main_type(field(0, e())), None);
    assert_eq!(main_type(field(0, field(0, new(4, [new(3, [e()])])))), None);
}

#[test]
fn calls_in_main_have_the_first_result() {
    assert_eq!(main_type(call(1, h(), [])), Some(plus(1)));
    assert_eq!(main_type(call(3, h(), [])), Some(plus(1)));
    assert_eq!(main_type(call(4, h(), [])), Some(minus(1)));
    assert_eq!(main_type(call(5, h(), [e()])), Some(plus(1)));
    assert_eq!(main_type(call(6, h(), [call(4, h(), [])])), Some(minus(1)));
    assert_eq!(main_type(call(5, h(), [])), None);
    assert_eq!(main_type(call(1, h(), [e()])), None);
    assert_eq!(main_type(call(5, h(), [h()])), None);
    assert_eq!(main_type(call(5, h(), [call(4, h(), [])])), None);
    assert_eq!(main_type(call(1, e(), [])), None);
    assert_eq!(main_type(call(8, h(), [])), None);
    assert_eq!(main_type(call(1, call(4, h(), []), [])), None);
}

#[test]
fn no_variables_in_main() {
    for variable in [this(), res(), param(0)] {
        assert_eq!(main_type(variable.clone()), None);
        assert_eq!(main_type(new(4, [variable])), None);
    }
}

#[test]
fn variables_in_bodies() {
    let closed = (plus(1), plus(1));
    assert!(typed(closed, (param(0), param(0))));
    assert!(!typed(closed, (param(1), param(0))));
    assert!(!typed(closed, (param(0), param(1))));
    assert!(!typed(closed, (param(2), param(0))));
    assert!(!typed(closed, (this(), param(0))));
    assert!(typed((plus(H), plus(H)), (this(), this())));
    // res is not known on the left, and is L-? on the right.
    assert!(!typed((minus(1), minus(1)), (res(), param(0))));
    assert!(typed((minus(1), minus(1)), (param(0), res())));
    assert!(typed((plus(1), minus_open(1)), (param(0), res())));
    assert!(!typed((plus(1), plus_open(1)), (param(0), res())));
    assert!(!typed(closed, (param(0), res())));
}

#[test]
fn res_has_the_class_of_the_left_side() {
    // The left side is an E, so res may stand where an E is wanted.
    assert!(typed((plus(2), minus_open(2)), (e(), res())));
    assert!(typed((plus(1), minus_open(1)), (e(), res())));
    assert!(!typed((plus(1), minus_open(2)), (e(), res())));
    assert!(!typed((plus(2), minus_open(2)), (param(0), res())));
}

#[test]
fn calls_in_bodies_have_the_second_result() {
    let call_to = |name| call(name, this(), []);
    let left = |results, name| typed(results, (call_to(name), e()));
    assert!(left((plus(1), plus(1)), 1));
    // L+? is read as L+ for the first result but not for the second.
    assert!(!left((plus(1), plus(1)), 2));
    assert!(left((plus(1), plus_open(1)), 2));
    // L-? is read as L-.
    assert!(!left((plus(1), minus_open(1)), 3));
    assert!(!left((minus(1), minus_open(1)), 3));
    assert!(left((minus(1), minus(1)), 3));
    assert!(left((minus(1), minus(1)), 4));
}

#[test]
fn open_receivers_and_arguments() {
    let body = |left| typed((minus(1), minus(1)), (left, e()));
    assert!(body(call(6, this(), [call(4, this(), [])])));
    assert!(!body(call(6, this(), [call(3, this(), [])])));
    assert!(!body(call(6, this(), [call(2, this(), [])])));
    assert!(!body(call(6, this(), [new(4, [call(3, this(), [])])])));
    assert!(!body(field(0, new(4, [call(3, this(), [])]))));
    assert!(body(field(0, new(4, [call(4, this(), [])]))));
}

#[test]
fn new_objects_in_bodies() {
    let left = |results, left| typed(results, (left, new(3, [e()])));
    let open = || call(3, this(), []);
    // An open value makes an open object, in a plus field or a minus one.
    assert!(left((plus(3), plus_open(3)), new(3, [open()])));
    assert!(!left((plus(3), plus(3)), new(3, [open()])));
    assert!(typed(
        (plus(4), plus_open(4)),
        (new(4, [open()]), new(4, [e()]))
    ));
    // A closed minus value makes a closed object, and fits no plus field.
    let minus_value = || call(4, this(), []);
    assert!(typed(
        (plus(4), plus(4)),
        (new(4, [minus_value()]), new(4, [e()]))
    ));
    assert!(!left((plus(3), minus(3)), new(3, [minus_value()])));
}

#[test]
fn one_open_value_does_not_excuse_another() {
    // A class with two plus fields: one open value, one closed minus one.
    let mut p = base();
    let two = p.class(0, &[plus(1), plus(1)]);
    let values = [call(3, this(), []), call(4, this(), [])];
    let body = (new(two, values), res());
    p.method((H, 9), (plus(two), minus(two)), &[], body);
    assert_eq!(check(&p.text(new(0, []))), Err(Refusal::Method));
}

#[test]
fn results_of_a_method() {
    // First fits second: a class above, a larger tag; not the other way.
    assert!(typed((plus(2), plus(1)), (e(), e())));
    assert!(!typed((plus(1), plus(2)), (e(), e())));
    assert!(!typed((minus(1), minus_open(1)), (e(), e())));
    assert!(typed((minus(1), minus(1)), (e(), e())));
    // The right side fits the second and need not fit the first.
    assert!(typed((plus(2), minus(1)), (e(), param(1))));
    assert!(!typed((plus(2), minus(2)), (e(), param(1))));
}

#[test]
fn methods_are_looked_up_above() {
    let mut p = base();
    let below = p.class(H, &[]);
    assert_eq!(check(&p.text(call(1, new(below, []), []))), Ok(plus(1)));
}

#[test]
fn a_bad_method_comes_before_a_bad_main() {
    let mut p = base();
    p.method((H, 9), (plus(1), plus(1)), &[], (res(), res()));
    assert_eq!(check(&p.text(this())), Err(Refusal::Method));
}
