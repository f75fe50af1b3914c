//! Cases A to J of document 01, from the bytes of a text to the bytes written
//! and the fuel left.

mod common;

use common::{checked, lines, trial};
use reference::builder::*;
use reference::values::Value;

const A: &[u8] = b"010100010003\n01020000\n02020101030103004402004041\n\
02020201000102004501014401004041\n03440100450200\n";

#[test]
fn a_the_ring_of_figure_4() {
    // m1, m2 and m1 met again are three calls.
    assert_eq!(checked(1000, A), (lines(&["08000103", "0500010100"]), 997));
}

#[test]
fn b_fuel_3_is_enough_for_a() {
    assert_eq!(checked(3, A), (lines(&["08000103", "0500010100"]), 0));
    assert_eq!(trial(3, A), (lines(&["0500010100"]), 0));
}

#[test]
fn c_fuel_2_is_not_enough_for_a() {
    // The call met again spends its unit like any other.
    assert_eq!(checked(2, A), (lines(&["08000103", "0702"]), 0));
}

#[test]
fn d_unguarded_recursion_is_undetermined() {
    let mut p = Program::start();
    let h = p.class(0, &[]);
    p.method(
        (h, 1),
        (minus(h), minus(h)),
        &[],
        (call(1, this(), []), res()),
    );
    let text = p.text(call(1, new(h, []), []));
    assert_eq!(checked(1000, &text), (lines(&["08000103", "06"]), 998));
}

#[test]
fn e_two_ways_to_write_one_ring() {
    let two = Value::new(1, vec![Value::new(1, vec![Value::mark(0)]).unwrap()]).unwrap();
    let two = two.closed(0);
    let one = Value::new(1, vec![Value::mark(1)]).unwrap().closed(1);
    assert!(two == one);
    assert_eq!((two.size(), one.size()), (1, 1));
    // And they differ from the same shape over another class.
    assert!(two != Value::new(2, vec![Value::mark(1)]).unwrap().closed(1));
}

/// Class C with a field C+, and a class with three methods: 1 and 2 build
/// X = new C(Y = new C(X)) between them, 3 builds Z = new C(Z); 4 takes a
/// ring and calls itself on the other one, and ends only if that is met again.
fn case_e() -> Program {
    let mut p = Program::start();
    let c = p.class(0, &[plus(1)]);
    let h = p.class(0, &[]);
    let ring = (plus(c), minus_open(c));
    let open_c = |name| (new(c, [call(name, this(), [])]), res());
    p.method((h, 1), ring, &[], open_c(2));
    p.method((h, 2), ring, &[], open_c(1));
    p.method((h, 3), ring, &[], open_c(3));
    let again = call(4, this(), [field(0, param(0))]);
    let answer = (again, new(h, []));
    p.method((h, 4), (plus(h), plus(h)), &[plus(c)], answer);
    p
}

#[test]
fn e_as_reports() {
    let p = case_e();
    let ring = |name| p.text(call(name, new(2, []), []));
    let report = lines(&["08000100", "0500010100"]);
    assert_eq!(checked(1000, &ring(1)), (report.clone(), 997));
    assert_eq!(checked(1000, &ring(3)), (report, 998));
}

#[test]
fn e_as_a_call_met_again() {
    // x.f of X = new C(Y = new C(X)) is Y, another graph but the same value:
    // 3 calls build the ring, the 4th is method 4, and the 5th meets it.
    let p = case_e();
    let text = p.text(call(4, new(2, []), [call(1, new(2, []), [])]));
    assert_eq!(
        checked(1000, &text),
        (lines(&["08000200", "05000200"]), 995)
    );
}

#[test]
fn f_refused_checked_and_undetermined_on_trial() {
    let mut p = Program::start();
    let l = p.class(0, &[]);
    let e = p.class(l, &[]);
    let d = p.class(l, &[plus(l)]);
    let h = p.class(0, &[]);
    let (k, m) = (0x0B, 0x0D);
    let k_body = (field(0, call(m, this(), [])), res());
    p.method((h, k), (plus(l), minus_open(l)), &[], k_body);
    let m_body = (new(d, [call(k, this(), [])]), new(d, [new(e, [])]));
    p.method((h, m), (plus(d), plus(d)), &[], m_body);
    let text = p.text(call(k, new(h, []), []));
    assert_eq!(checked(1000, &text), (lines(&["0806"]), 1000));
    // k, m and k met again.
    assert_eq!(trial(1000, &text), (lines(&["06"]), 997));
}

#[test]
fn g_a_field_of_object_is_stuck_on_trial() {
    let text = Program::start().text(field(0, new(0, [])));
    assert_eq!(trial(1000, &text), (lines(&["0701"]), 1000));
    assert_eq!(checked(1000, &text), (lines(&["0807"]), 1000));
}

/// A program with a method that wraps 5 objects round its argument, one that
/// does so 5 times, and main with 30 + `more` objects round an E.
fn nested(more: usize) -> Vec<u8> {
    let mut p = Program::start();
    let l = p.class(0, &[]);
    let e = p.class(l, &[]);
    let c = p.class(l, &[plus(l)]);
    let h = p.class(0, &[]);
    let types = (plus(l), plus(l));
    let wrapped = (0..5).fold(param(0), |inner, _| new(c, [inner]));
    p.method((h, 1), types, &[plus(l)], (wrapped, param(0)));
    let five = (0..5).fold(param(0), |inner, _| call(1, this(), [inner]));
    p.method((h, 2), types, &[plus(l)], (five, param(0)));
    let seed = (0..more).fold(new(e, []), |inner, _| new(c, [inner]));
    p.text(call(2, new(h, []), [call(1, new(h, []), [seed])]))
}

#[test]
fn h_32_nested_objects_pass() {
    // 25 + 5 round a C round an E; 1 + 1 + 5 calls. Root first: C is 3, E is 2.
    let mut expected = vec!["08000100".to_string()];
    expected.extend((0..31).map(|n| format!("05{n:02X}0301{:02X}", n + 1)));
    expected.push("051F0200".to_string());
    let expected: String = expected.iter().map(|line| format!("{line}\n")).collect();
    assert_eq!(checked(1000, &nested(1)), (expected, 993));
}

#[test]
fn h_33_nested_objects_do_not() {
    assert_eq!(
        checked(1000, &nested(2)),
        (lines(&["08000100", "0704"]), 993)
    );
}

#[test]
fn i_the_ring_of_classes_3_and_5() {
    let mut p = Program::start();
    p.class(0, &[]);
    p.class(0, &[]);
    let three = p.class(0, &[plus(5)]);
    let h = p.class(0, &[]);
    let five = p.class(0, &[plus(3)]);
    let body = |class, name| (new(class, [call(name, this(), [])]), res());
    p.method(
        (h, 1),
        (plus(three), minus_open(three)),
        &[],
        body(three, 2),
    );
    p.method((h, 2), (plus(five), minus_open(five)), &[], body(five, 1));
    let text = p.text(call(1, new(h, []), []));
    let report = lines(&["08000300", "0500030101", "0501050100"]);
    assert_eq!(checked(1000, &text), (report, 997));
}

/// `count` methods, each calling the next; the last gives a new object.
fn chain(count: u8) -> Vec<u8> {
    let mut p = Program::start();
    let h = p.class(0, &[]);
    for name in 1..=count {
        let left = if name < count {
            call(name + 1, this(), [])
        } else {
            new(h, [])
        };
        p.method((h, name), (plus(h), plus(h)), &[], (left, this()));
    }
    p.text(call(1, new(h, []), []))
}

#[test]
fn j_16_open_calls_pass() {
    assert_eq!(
        checked(1000, &chain(16)),
        (lines(&["08000100", "05000100"]), 984)
    );
}

#[test]
fn j_the_17th_is_too_deep() {
    // It spends its unit before the depth is tested; without a unit left it
    // is out of fuel instead.
    assert_eq!(
        checked(1000, &chain(17)),
        (lines(&["08000100", "0703"]), 983)
    );
    assert_eq!(checked(17, &chain(17)), (lines(&["08000100", "0703"]), 0));
    assert_eq!(checked(16, &chain(17)), (lines(&["08000100", "0702"]), 0));
}
