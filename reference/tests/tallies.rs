//! Whole numbers (request 2026-02) where they are run, in batch texts, and at the
//! sizes that they bring. The examples of its issue are in `numbers.rs`, reading
//! and types in `number_types.rs`.

mod common;

use common::{checked, lines, refuses, run_on, slashed, trial};
use reference::builder::{Program, call, choose, minus, new, number, param, res, sum, this, whole};
use reference::calls::{Mode, check};
use reference::refusals::Refusal::{Method, Parts, Places};
use reference::syntax::NUMBER;

/// A table with classes A (1) and B below it (2), and a method 1 of B that has a
/// number and gives one.
fn tallies() -> Program {
    let mut p = Program::start();
    let a = p.class(0, &[]);
    let b = p.class(a, &[whole()]);
    p.method(
        (b, 1),
        (whole(), whole()),
        &[whole()],
        (param(0), number(0)),
    );
    p
}

#[test]
fn only_the_taken_branch_is_run() {
    let p = tallies();
    let endless = call(1, new(0, []), []);
    let text = p.text(choose(number(0), endless.clone(), number(4)));
    assert_eq!(trial(0, &text), (lines(&["090004"]), 0));
    let text = p.text(choose(number(65_535), number(5), endless));
    assert_eq!(trial(0, &text), (lines(&["090005"]), 0));
    // The number itself is evaluated first, and none of it spends fuel.
    let counted = call(1, new(2, [number(1)]), [number(0)]);
    let text = p.text(choose(counted, number(6), number(7)));
    assert_eq!(checked(1, &text), (lines(&["0800FE00", "090007"]), 0));
}

#[test]
fn the_answer_of_a_call_may_be_a_number() {
    // X = 5 is 5, and a call met again inside it gives another one.
    let mut p = Program::start();
    let h = p.class(0, &[]);
    let again = sum(number(5), call(1, this(), []));
    p.method((h, 1), (whole(), whole()), &[], (again, number(2)));
    let text = p.text(call(1, new(h, []), []));
    assert_eq!(checked(9, &text), (lines(&["0800FE00", "090007"]), 7));
    // A mark and the undetermined value are no numbers.
    let mut p = Program::start();
    let h = p.class(0, &[]);
    let again = sum(number(5), call(1, this(), []));
    p.method((h, 1), (minus(NUMBER), minus(NUMBER)), &[], (again, res()));
    let text = p.text(call(1, new(h, []), []));
    assert_eq!(check(&text), Err(Method));
    assert_eq!(trial(9, &text), (lines(&["0701"]), 7));
}

#[test]
fn thirty_two_objects_full_of_numbers_fill_the_report() {
    let object = |place: usize| format!("05{place:02X}0104FEFFFFFEFFFFFEFFFFFE00{place:02X}/");
    let kept = |place: usize| {
        let next = (place + 1) % 32;
        format!("05{place:02X}0204{next:02X}FEFFFFFEFFFFFE00{place:02X}/")
    };
    let classes = "01010004FE00FE00FE00FE00/010200040200FE00FE00FE00/";
    let program = slashed(&format!("{classes}0402004200/"));
    let ring: String = (0..32).map(kept).collect();
    let ring = slashed(&ring);
    let wanted = format!("08000200\n{ring}");
    let ran = run_on(Mode::Checked, 9, program.as_bytes(), ring.as_bytes());
    assert_eq!(ran, (wanted, 9));
    // Numbers alone: 254 lines of the greatest length, of which one is reached.
    let all: String = (0..254).map(object).collect();
    let all = slashed(&all);
    assert_eq!(all.len(), 8_382);
    let program = slashed(&format!("{classes}0401004200/"));
    let (output, _) = run_on(Mode::Checked, 9, program.as_bytes(), all.as_bytes());
    assert_eq!(
        output,
        slashed("08000100/05000104FEFFFFFEFFFFFEFFFFFE0000/")
    );
}

#[test]
fn numbers_in_the_fields_of_parts() {
    const TALLY: &str = "01010002FE000103/04010043004200/";
    for second in [
        "05000102FE/",
        "05000102FE01/",
        "05000102FE0102/",
        "05000102FE0102FE/",
        "05000102FE0102FE00/",
        "05000102FE0102FEFE/",
        "05000103FE0102FFFF/",
        "05000102FE0102FFFF/",
        "050001020102FF/",
        "05000102FE010201/",
        "0500FE00/",
        "05000102FE0102FF/0501FE00/",
    ] {
        refuses(TALLY, second, Parts);
    }
    for second in [
        "05000102FFFF/",
        "0500010200FF/",
        "05000102FE0001FE0002/",
        "05000102FE000101/05010102FFFF/",
        "05000000/",
    ] {
        refuses(TALLY, second, Places);
    }
    // What the root does not reach need not fit.
    let second = slashed("05000102FE010200/05010102FFFE0007/");
    let ran = run_on(Mode::Trial, 9, slashed(TALLY).as_bytes(), second.as_bytes());
    assert_eq!(ran, (lines(&["090102"]), 9));
}
