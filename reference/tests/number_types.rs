//! Whole numbers (request 2026-02) where they are read and typed. The examples
//! of its issue are in `numbers.rs`, runs and batch texts in `tallies.rs`.

mod common;

use common::{checked, lines, refuses, slashed, trial};
use reference::builder::{
    Program, call, choose, field, minus, minus_open, new, number, param, plus, res, sum, this,
    whole,
};
use reference::calls::check;
use reference::refusals::Refusal::{self, Classes, Frame, Main};
use reference::syntax::{NUMBER, Type};

fn checks(text: &str) -> Result<Type, Refusal> {
    check(slashed(text).as_bytes())
}

#[test]
fn expressions_cut_short_too_long_or_unknown_are_2() {
    let wrong = [
        "0346/",
        "034600/",
        "0346000000/",
        "0347/",
        "0347460001/",
        "0347460001460001460001/",
        "0348460001/",
        "0349460001460001/",
        "0349460001460001460001460001/",
        "034A/",
        "034A460001460001/",
        "03474700014600024600/",
    ];
    for text in wrong {
        refuses(text, "", Frame);
    }
}

#[test]
fn nesting_of_seven_through_each_sign_is_2() {
    for (sign, after) in [("47", "460001"), ("48", "460001"), ("49", "460001460001")] {
        let nested =
            |levels: usize| format!("03{}460001{}/", sign.repeat(levels), after.repeat(levels));
        assert_eq!(checks(&nested(5)), Ok(whole()));
        refuses(&nested(6), "", Frame);
        // In the last part, too.
        let last = |levels: usize| {
            let front = format!("{sign}{after}").repeat(levels);
            format!("03{front}460001/")
        };
        assert_eq!(checks(&last(5)), Ok(whole()));
        refuses(&last(6), "", Frame);
    }
}

#[test]
fn the_class_of_numbers_is_no_class_of_objects() {
    let wrong = [
        "0101FE00/03450000/",
        "01FE0000/03450000/",
        "01010000/02FE01FE00FE0000460001460001/03450000/",
        "0345FE00/",
        "0345FE01460000/",
        "01010000/02010101000100004045FE00/03450000/",
        "0349460001450000460000/01010000/",
        "0347460001460000/0345FE00/",
    ];
    let earned = [4, 4, 4, 4, 4, 4, 3, 3];
    for (text, number) in wrong.into_iter().zip(earned) {
        assert_eq!(checks(text).map_err(Refusal::number), Err(number), "{text}");
    }
    refuses("04FE004200/", "05000000/", Classes);
    refuses("04FE014200/", "05000000/", Classes);
    refuses("04FE044200/", "05000000/", Frame);
}

#[test]
fn a_number_whose_bytes_look_like_signs() {
    for bytes in ["45FF", "4545", "4747", "4900", "FEFE", "FF45", "4645"] {
        let output = checked(9, slashed(&format!("0346{bytes}/")).as_bytes());
        assert_eq!(output, (lines(&["0800FE00", &format!("09{bytes}")]), 9));
    }
}

#[test]
fn types_of_fields_parameters_and_results() {
    // Fields, parameters and first results have tags 00 and 03, a second
    // result any: as for other classes.
    for (tag, sound) in [("00", true), ("01", false), ("02", false), ("03", true)] {
        let field = format!("01010001FE{tag}/03450000/");
        let param = format!("01010000/02010101000100 01FE{tag}4040/03450000/").replace(' ', "");
        let first = format!("01010000/020101FE{tag}FE0300460001460001/03450000/");
        let second = format!("01010000/020101FE00FE{tag}00460001460001/03450000/");
        for text in [field, param, first] {
            let wanted = if sound { Ok(plus(0)) } else { Err(Classes) };
            assert_eq!(checks(&text), wanted, "{text}");
        }
        assert_eq!(checks(&second), Ok(plus(0)));
    }
}

/// A table with classes A (1) and B below it (2), and a method 1 of B that has a
/// number and gives one.
fn tallies() -> Program {
    let mut p = Program::start();
    let a = p.class(0, &[]);
    let b = p.class(a, &[whole()]);
    p.method(
        (b, 1),
        (whole(), whole()),
        &[whole()],
        (param(0), number(0)),
    );
    p
}

#[test]
fn numbers_have_no_fields_and_no_methods() {
    let p = tallies();
    for main in [
        field(0, number(7)),
        call(1, number(7), []),
        call(1, number(7), [number(8)]),
    ] {
        let text = p.text(main);
        assert_eq!(check(&text), Err(Main));
        assert_eq!(trial(9, &text), (lines(&["0701"]), 9));
    }
}

#[test]
fn operands_are_numbers_of_tag_00() {
    let mut p = Program::start();
    let h = p.class(0, &[minus(NUMBER)]);
    p.method(
        (h, 1),
        (minus(NUMBER), minus(NUMBER)),
        &[],
        (field(0, this()), res()),
    );
    let held = || new(h, [number(3)]);
    assert_eq!(check(&p.text(field(0, held()))), Ok(minus(NUMBER)));
    for main in [
        sum(field(0, held()), number(1)),
        sum(number(1), field(0, held())),
        sum(call(1, held(), []), number(1)),
        choose(field(0, held()), number(1), number(2)),
        choose(new(0, []), number(1), number(2)),
        sum(number(1), new(0, [])),
    ] {
        assert_eq!(check(&p.text(main)), Err(Main));
    }
    // On trial the numbers are there, whatever the tags say.
    let text = p.text(sum(field(0, held()), call(1, held(), [])));
    assert_eq!(trial(9, &text), (lines(&["090006"]), 8));
}

#[test]
fn the_wider_type_is_by_class_and_tag_together() {
    let mut p = Program::start();
    let a = p.class(0, &[]);
    let h = p.class(0, &[]);
    let (object, apple) = (0, a);
    let types = [plus(apple), minus(object), plus(object), minus(apple)];
    for (name, &type_) in (1..).zip(&types) {
        let body = (new(a, []), new(a, []));
        p.method((h, name), (type_, type_), &[], body);
    }
    let chosen = |one, two| {
        let called = |name| call(name, new(h, []), []);
        check(&p.text(choose(number(1), called(one), called(two))))
    };
    assert_eq!(chosen(1, 2), Ok(minus(object)));
    assert_eq!(chosen(2, 1), Ok(minus(object)));
    assert_eq!(chosen(3, 4), Err(Main));
    assert_eq!(chosen(4, 3), Err(Main));
    assert_eq!(chosen(1, 3), Ok(plus(object)));
    assert_eq!(chosen(4, 1), Ok(minus(apple)));
    assert_eq!(chosen(3, 3), Ok(plus(object)));
    // A number and an object never fit each other.
    let mixed = choose(number(1), number(1), new(0, []));
    assert_eq!(check(&p.text(mixed)), Err(Main));
}

#[test]
fn branches_of_open_types() {
    // res beside a new object over it: (C, 02) and (C, 01) give (C, 02).
    let mut p = Program::start();
    let c = p.class(0, &[minus(0)]);
    let h = p.class(0, &[]);
    let types = (plus(c), minus_open(c));
    let left = choose(
        param(0),
        new(c, [call(1, this(), [number(0)])]),
        new(c, [new(0, [])]),
    );
    let right = choose(param(0), res(), new(c, [res()]));
    p.method((h, 1), types, &[whole()], (left, right));
    let text = p.text(call(1, new(h, []), [number(1)]));
    let report = lines(&["08000100", "0500010101", "0501010102", "05020000"]);
    assert_eq!(checked(9, &text), (report, 7));
}
