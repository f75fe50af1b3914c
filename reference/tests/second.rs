//! Second texts made by hand: each clause of refusals 14 and 15, the order of
//! all refusals, and where `linerun` cuts. In texts `/` stands for LF. The table
//! of the request is in `batch.rs`.

mod common;

use common::{refuses, reports, run_on, slashed};
use reference::calls::{self, Mode, Session, open};
use reference::fast;
use reference::linerun::{INPUT_LENGTH, cut};
use reference::refusals::Refusal::*;

/// Class 1, class 2 below it with fields 1+ and 0-, class 3 with a field 2+.
const CLASSES: &str = "01010000/0102010201000003/010300010200/";
/// The same with a main that gives back its parameter, a 1+.
const SAME: &str = "01010000/0102010201000003/010300010200/0401004200/";

#[test]
fn refusal_14_one_text_too_few_or_too_many() {
    refuses(SAME, "", Parts);
    for second in ["05000000/", "x", "/", "05000000"] {
        refuses("03450000/", second, Parts);
    }
    reports("03450000/", "", "05000000/");
}

#[test]
fn refusal_14_not_the_line_form() {
    let wrong = [
        "/",
        "0",
        "05000100",
        "05000100//",
        "/05000100/",
        "0500010/",
        "0500 0100/",
        "05000100\r/",
        "0500010G/",
        "0500020100ff/",
        "05000100/0",
        "\u{fe}\u{ff}/",
    ];
    for second in wrong {
        refuses(SAME, second, Parts);
    }
    refuses(SAME, &format!("{}/", "05".repeat(256)), Parts);
    // These have the line form, and are longer than a first text may be.
    refuses(SAME, &"05000100/".repeat(7_000), Parts);
    refuses(SAME, &"00/".repeat(20_000), Parts);
}

#[test]
fn refusal_14_lines_that_are_no_parts() {
    let wrong = [
        "0000010000/",
        "04000100/",
        "06/",
        "0701/",
        "09000100/",
        "05/",
        "0500/",
        "050001/",
        "0500010000/",
        "05000202/",
        "0500020200/",
        "0500020200FF00/",
        "05000202000000000000/",
    ];
    for second in wrong {
        refuses(SAME, second, Parts);
    }
}

#[test]
fn refusal_14_numbers_classes_and_counts() {
    let wrong = [
        "05010100/",
        "05FF0100/",
        "05000100/05000100/",
        "05000100/05020100/",
        "05010100/05000100/",
        "05000400/",
        "05002000/",
        "0500FF00/",
        "0500FE00/",
        "0500010100/",
        "05000200/",
        "0500020100/",
        "05000203000000/",
        "050002050000000000/",
        "0500000100/",
        "050002020001/",
        "05000202FE00/",
        "050002020100/",
    ];
    for second in wrong {
        refuses(SAME, second, Parts);
    }
    // The same in a last part that nothing reaches.
    let unreached = [
        "05020100/",
        "05000100/",
        "05010400/",
        "0501FF00/",
        "0501010100/",
        "05010200/",
        "050102050000000000/",
        "0501000100/",
        "050102020002/",
        "05010202FE00/",
    ];
    for line in unreached {
        refuses(SAME, &format!("05000100/{line}"), Parts);
    }
}

#[test]
fn refusal_14_over_all_parts_and_15_over_reached_ones() {
    // Part 1 is not reached: what it holds need not fit, but must be there.
    for (second, refusal) in [
        ("05000100/0501030100/", None),
        ("05000100/05010301FF/", None),
        ("05000100/0501030102/", Some(Parts)),
        ("05000100/05010400/", Some(Parts)),
        // The root does not fit, and an unreached line is no part: 14.
        ("05000000/05010400/", Some(Parts)),
        ("05000000/05010100/", Some(Places)),
    ] {
        match refusal {
            Some(refusal) => refuses(SAME, second, refusal),
            None => reports(SAME, second, "05000100/"),
        }
    }
}

#[test]
fn refusal_15_the_root() {
    refuses(SAME, "05000000/", Places);
    refuses(SAME, "0500030101/0501020201FF/", Places);
    reports(SAME, "05000100/", "05000100/");
    reports(SAME, "0500020200FF/", "0500020200FF/");
    let two = format!("{CLASSES}0402004200/");
    refuses(&two, "05000100/", Places);
    reports(&two, "0500020200FF/", "0500020200FF/");
}

#[test]
fn refusal_15_places_that_hold_parts() {
    let three = format!("{CLASSES}0403004200/");
    // 3 holds a 2, which holds a 1 and anything.
    let report = "0500030101/050102020200/05020100/";
    reports(&three, report, report);
    refuses(&three, "0500030101/05010100/", Places);
    refuses(&three, "0500030100/", Places);
    refuses(&three, "05000301FF/", Places);
    refuses(&three, "0500030101/05010202FFFF/", Places);
    refuses(&three, "0500030101/0501020200FF/", Places);
    refuses(&three, "0500030101/050102020200/05020000/", Places);
    // A part that fits one of its places and not another.
    refuses(&three, "0500030101/050102020001/", Places);
    let report = "0500030101/050102020101/";
    reports(&three, report, report);
}

#[test]
fn undetermined_fields_come_back() {
    let report = "0500020201FF/05010100/";
    reports(SAME, "0500020201FF/05010100/", report);
    reports(SAME, "0500020202FF/05010100/05020100/", report);
}

#[test]
fn the_report_is_numbered_anew() {
    // Depth first from the root, whatever the numbers in the text are.
    let second = "050002020302/05010100/050202020101/050302020104/0504020201FF/";
    let report = "050002020104/050102020203/05020100/0503020202FF/050402020202/";
    reports(SAME, second, report);
}

#[test]
fn the_order_of_refusals() {
    // 6 and 7 come before 14 and 15, and a trial run has neither.
    let (six, seven) = ("02010101000100004140/", "04010041/");
    for (program, number) in [
        (format!("{CLASSES}{six}0401004200/"), "0806\n"),
        (format!("{CLASSES}{seven}"), "0807\n"),
    ] {
        let program = slashed(&program);
        for (second, refusal) in [("", "080E\n"), ("05/", "080E\n"), ("05000000/", "080F\n")] {
            let second = slashed(second);
            let run = |mode| run_on(mode, 9, program.as_bytes(), second.as_bytes()).0;
            assert_eq!(run(Mode::Checked), number);
            assert_eq!(run(Mode::Trial), refusal);
        }
    }
    // 1 to 5 come before 14, which is never 1 or 2.
    refuses("0400004200", "x", LineForm);
    refuses("0400004600/", "x", Frame);
    refuses("0400004200/03450000/", "x", Order);
    refuses("0400014200/", "x", Classes);
    let long = format!("{}0400004200/", "00/".repeat(16_520));
    refuses(&long, "05000000/", LineForm);
}

#[test]
fn state_refusals_come_before_both_texts() {
    let closed = Session {
        open: false,
        fuel: 3,
    };
    let engines = [calls::run_batch, fast::run_batch];
    for (run, mode) in engines
        .into_iter()
        .flat_map(|run| [(run, Mode::Checked), (run, Mode::Trial)])
    {
        for (text, second) in [
            ("0400004200/", "05000000/"),
            ("x", "y"),
            ("0400004200/", ""),
        ] {
            let (text, second) = (slashed(text), slashed(second));
            let refused = |session, report: usize, work: usize| {
                let (mut report, mut work) = (vec![0x5A; report], vec![0xA5; work]);
                let (text, second) = (text.as_bytes(), second.as_bytes());
                let answer = run(mode, text, second, session, &mut report, &mut work);
                assert_eq!((answer.session, answer.length), (session, 0));
                assert!(report.iter().all(|&byte| byte == 0x5A));
                assert!(work.iter().all(|&byte| byte == 0xA5));
                answer.refusal
            };
            assert_eq!(refused(closed, 0, 0), Some(Closed));
            assert_eq!(refused(closed, 1_056, 163_840), Some(Closed));
            assert_eq!(refused(open(5), 1_055, 0), Some(ReportBuffer));
            assert_eq!(refused(open(5), 1_056, 163_839), Some(WorkBuffer));
        }
    }
}

#[test]
fn where_an_input_is_cut() {
    let cases = [
        ("", "", ""),
        ("04", "04", ""),
        ("04/", "04/", ""),
        ("04x/y", "04x/", "y"),
        ("0x/04/04/", "0x/04/", "04/"),
        ("0304/x/", "0304/x/", ""),
        ("0/4/x", "0/4/x", ""),
        ("/04/", "/04/", ""),
        ("0404//", "0404/", "/"),
        (" 04/x", " 04/x", ""),
    ];
    for (input, first, second) in cases {
        let (input, first, second) = (slashed(input), slashed(first), slashed(second));
        let wanted = (first.as_bytes(), second.as_bytes());
        assert_eq!(cut(input.as_bytes()), wanted);
    }
    assert_eq!(INPUT_LENGTH, 57_950);
}
