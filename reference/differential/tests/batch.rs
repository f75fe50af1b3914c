//! Request 2026-01 through the proved engine: the second text of a run, from the bytes of both texts to the bytes
//! written and the fuel left. The texts and outputs are the request's examples a to k; each run is compared with the
//! reference engine too, in buffers full of junk. Then what only the library can be asked, and generated texts. In texts
//! `/` stands for LF.

use baqolluy::{REPORT_LENGTH, Session, WORK_LENGTH, open};
use differential::compare::{Bench, output_on, slashed};
use differential::tally::Tally;
use reference::calls::Mode;
use reference::generator::batch::cuts::cut;
use reference::generator::batch::{Kind, case, draw, parts, sound};
use reference::generator::random::Random;
use reference::linerun;
use reference::writing;

const MODES: [Mode; 2] = [Mode::Checked, Mode::Trial];

/// A run of an input as `linerun` cuts it, and the fuel left.
fn ran(mode: Mode, fuel: u16, input: &str) -> (String, u16) {
    let input = slashed(input);
    let (text, second) = linerun::cut(input.as_bytes());
    output_on(mode, fuel, text, second)
}

/// Both modes give this report, a checked run after this verdict, and leave this fuel.
fn reports(fuel: u16, input: &str, verdict: &str, report: &str, left: u16) {
    let whole = slashed(&format!("{verdict}{report}"));
    assert_eq!(ran(Mode::Checked, fuel, input), (whole, left), "{input}");
    let report = slashed(report);
    assert_eq!(ran(Mode::Trial, fuel, input), (report, left), "{input}");
}

/// Both modes refuse with this number, and spend nothing.
fn refuses(input: &str, number: u8) {
    let line = format!("08{number:02X}\n");
    for mode in MODES {
        assert_eq!(ran(mode, 1_000, input), (line.clone(), 1_000), "{input}");
    }
}

/// Class 1 and two classes 2 and 3 below it, each with a field 1+.
const TWO_LETTERS: &str = "01010000/010201010100/010301010100/";

#[test]
fn a_and_b_one_ring_cut_as_four_parts_and_as_two() {
    let program = format!("{TWO_LETTERS}04020043004200/");
    for parts in [
        "0500020101/0501030102/0502020103/0503030100/05040100/",
        "0500020101/0501030100/",
    ] {
        let report = "0500030101/0501020100/";
        reports(
            1_000,
            &format!("{program}{parts}"),
            "08000100/",
            report,
            1_000,
        );
    }
}

#[test]
fn c_a_call_is_met_again_by_the_ring_that_came_in() {
    // m(z, ring): m is met again if the ring that came in is the one that `ring` makes.
    let program = "01010000/010201010100/01030000/02030102000202004502014401004041/\
02030201030103020100010044020240420142004201/0401004402024503004200440100450300/";
    let ring = format!("{program}0500020101/0501020102/0502020100/");
    reports(4, &ring, "08000103/", "0500020100/", 0);
    reports(3, &ring, "08000103/", "0702/", 0);
    let list = format!("{program}0500020101/0501020102/05020100/");
    reports(4, &list, "08000103/", "0702/", 0);
    reports(5, &list, "08000103/", "0500020100/", 0);
}

#[test]
fn d_undetermined_at_a_minus_place_and_at_a_plus_place() {
    let minus = "010100010003/0401004200/05000101FF/";
    reports(1_000, minus, "08000100/", "05000101FF/", 1_000);
    refuses("010100010000/0401004200/05000101FF/", 15);
}

#[test]
fn e_parts_that_are_not_reached_need_not_fit() {
    let input = "010100010000/0401004200/0500010100/0501010102/05020000/";
    reports(1_000, input, "08000100/", "0500010100/", 1_000);
}

#[test]
fn f_no_list_of_parts() {
    for list in [
        "",
        "0501010100/",
        "0500010101/",
        "05000100/",
        "0500020100/",
        "05000101ff/",
        "0500010100",
    ] {
        refuses(&format!("010100010000/0401004200/{list}"), 14);
    }
}

#[test]
fn g_one_part_held_at_two_places() {
    let program = "01010000/01020100/0103000201000200/0403004200/";
    let report = "050003020101/05010200/";
    let fits = format!("{program}{report}");
    reports(1_000, &fits, "08000300/", report, 1_000);
    refuses(&format!("{program}050003020101/05010100/"), 15);
}

#[test]
fn h_frames_in_both_texts() {
    for (input, number) in [
        ("0400004200/03450000/", 14),
        ("0400004200", 1),
        ("03450000/0400004200/05000000/", 3),
        ("03450000/05000000/", 2),
        ("0400034200/05000000/", 4),
        ("0400044200/05000000/", 2),
        ("0401004200/05000000/", 4),
    ] {
        refuses(input, number);
    }
}

#[test]
fn i_types_come_before_the_second_text() {
    let untyped = "010100010103/04010040/";
    let line = |line: &str| (format!("{line}\n"), 1_000);
    assert_eq!(ran(Mode::Checked, 1_000, untyped), line("0807"));
    assert_eq!(ran(Mode::Trial, 1_000, untyped), line("080E"));
}

/// A ring of so many parts, each of a class by its number.
fn ring(count: usize, class: impl Fn(usize) -> u8) -> String {
    let part = |number| {
        let next = (number + 1) % count;
        format!("05{number:02X}{:02X}01{next:02X}/", class(number))
    };
    (0..count).map(part).collect()
}

#[test]
fn j_254_lines_and_one_more() {
    let input = format!("{TWO_LETTERS}0401004200/{}", ring(254, |_| 2));
    reports(1_000, &input, "08000100/", "0500020100/", 1_000);
    refuses(&format!("{input}05FE0100/"), 14);
    refuses(&format!("{TWO_LETTERS}0401004200/{}", ring(255, |_| 2)), 14);
}

#[test]
fn k_33_distinct_parts_and_32() {
    let one_in = |period| move |number| if number % period == 0 { 3 } else { 2 };
    let program = format!("{TWO_LETTERS}0401004200/");
    refuses(&format!("{program}{}", ring(231, one_in(33))), 15);
    let input = format!("{program}{}", ring(224, one_in(32)));
    let report = ring(32, one_in(32));
    assert!(report.starts_with("0500030101/0501020102/") && report.ends_with("/051F020100/"));
    reports(1_000, &input, "08000100/", &report, 1_000);
}

/// `linerun` cuts nothing after a main `03`, so that its second text comes through the library alone.
#[test]
fn a_main_03_takes_no_second_text() {
    let text = b"03450000\n";
    for mode in MODES {
        for second in ["05000000\n", "x", "\n", "0"] {
            let refused = ("080E\n".to_string(), 7);
            assert_eq!(output_on(mode, 7, text, second.as_bytes()), refused);
        }
        let (output, left) = output_on(mode, 7, text, b"");
        assert!(output.ends_with("05000000\n") && left == 7);
    }
}

/// 14 for what is no line form, or longer than any list: never 1 or 2.
#[test]
fn second_texts_of_any_length() {
    let text = b"0400004200\n";
    for second in [
        vec![0; 3],
        b"05000000".repeat(7_500),
        b"05000000\n".repeat(256),
        b"05000000\n".repeat(7_000),
        vec![b'\n'; 65_536],
        vec![0xFF; 70_000],
    ] {
        for mode in MODES {
            let refused = ("080E\n".to_string(), 7);
            assert_eq!(output_on(mode, 7, text, &second), refused);
        }
    }
}

/// 11, 12 and 13 before 14, 15 and everything else, with a second text too; then the lowest number that the texts earn.
#[test]
fn state_refusals_come_before_both_texts() {
    let mut bench = Bench::new(301);
    let closed = Session {
        active: false,
        fuel: 3,
    };
    let program: &[u8] = b"010100010000\n0401004200\n";
    for (text, input, earned) in [
        (program, &b"0500010100\n"[..], 0),
        (program, b"", 14),
        (program, b"05000101FF\n", 15),
        (b"03450000\n", b"05000000\n", 14),
        (b"0345\n", b"05000101FF\n", 2),
    ] {
        for mode in MODES {
            for (session, report, work, wanted) in [
                (open(7), 1_056, 163_840, earned),
                (open(0), 1_100, 163_900, earned),
                (open(7), 1_056, 163_839, 13),
                (open(7), 1_055, 163_839, 12),
                (open(7), 0, 0, 12),
                (closed, 0, 0, 11),
                (closed, 1_056, 163_840, 11),
            ] {
                let ran = bench.run_on(mode, (text, input), session, (report, work));
                let answer = ran
                    .unwrap_or_else(|difference| panic!("{difference}"))
                    .answer;
                assert_eq!(answer.refusal, wanted);
                assert!(wanted == 0 || answer.session == session && answer.length == 0);
            }
        }
    }
}

/// What is written and what stays, told without the reference engine.
#[test]
fn bytes_that_stay() {
    let program: &[u8] = b"010100010000\n0401004200\n";
    for (input, refusal) in [
        (&b"0500010101\n0501010100\n"[..], 0),
        (b"0500010102\n", 14),
        (b"05000000\n", 15),
    ] {
        for run in [baqolluy::run, baqolluy::trial] {
            let mut report = vec![0x5A; 1_500];
            let mut work = vec![0xA5; 170_000];
            let answer = run(program, input, open(9), &mut report, &mut work);
            assert_eq!((answer.refusal, answer.session), (refusal, open(9)));
            let (length, zeroed) = if refusal == 0 { (11, 163_840) } else { (0, 0) };
            assert_eq!(usize::from(answer.length), length);
            assert_eq!(&report[..length], &b"0500010100\n"[..length]);
            assert!(report[length..].iter().all(|&byte| byte == 0x5A));
            assert!(work[..zeroed].iter().all(|&byte| byte == 0));
            assert!(work[zeroed..].iter().all(|&byte| byte == 0xA5));
        }
    }
}

/// Generated programs on generated second texts, fitting and not.
#[test]
fn generated_second_texts() {
    let mut bench = Bench::new(302);
    let mut tally = Tally::default();
    for number in 0..8_000 {
        let case = case(&mut Random::for_case(302, number));
        let texts = (&case.batch.text[..], &case.batch.second[..]);
        let ran = bench.run_on_anyhow(case.mode, texts, open(case.fuel));
        let ran = ran.unwrap_or_else(|difference| panic!("{difference}"));
        tally.run(case.mode, ran.answer.refusal, ran.report);
    }
    for kind in Kind::ALL {
        for number in 0..500 {
            let batch = draw(kind, &mut Random::for_case(303, number));
            for mode in MODES {
                let texts = (&batch.text[..], &batch.second[..]);
                let ran = bench.run_on_anyhow(mode, texts, open(1_000));
                let ran = ran.unwrap_or_else(|difference| panic!("{difference}"));
                tally.run(mode, ran.answer.refusal, ran.report);
            }
        }
    }
    for mode in MODES {
        for refusal in [0, 14, 15] {
            assert!(tally.refused(mode, refusal) > 200, "{tally}");
        }
    }
}

/// One value cut in many ways: one report, and one session after.
#[test]
fn the_same_tree_cut_otherwise() {
    let mut bench = Bench::new(304);
    for number in 0..1_000 {
        let mut random = Random::for_case(304, number);
        let (table, whole) = sound(&mut random);
        let text = writing::text(&table).expect("a text");
        let mut first = None;
        for _ in 0..5 {
            let second = parts::text(&cut(&mut random, &table, &whole));
            for mode in MODES {
                let ran = bench.run_on_anyhow(mode, (&text, &second), open(60));
                let ran = ran.unwrap_or_else(|difference| panic!("{difference}"));
                let given = (ran.answer, ran.report.to_vec());
                assert_eq!(*first.get_or_insert_with(|| given.clone()), given);
            }
        }
    }
}

/// The same without the reference engine, whose plain comparison takes long: 100,000 texts.
#[test]
fn twenty_thousand_trees_cut_five_times_each() {
    let (mut report, mut work) = (vec![0; REPORT_LENGTH], vec![0; WORK_LENGTH]);
    for number in 0..20_000 {
        let mut random = Random::for_case(305, number);
        let (table, whole) = sound(&mut random);
        let text = writing::text(&table).expect("a text");
        let mut first = None;
        for _ in 0..5 {
            let second = parts::text(&cut(&mut random, &table, &whole));
            let answer = baqolluy::run(&text, &second, open(60), &mut report, &mut work);
            assert_eq!(answer.refusal, 0);
            let given = (answer, report[..usize::from(answer.length)].to_vec());
            assert_eq!(*first.get_or_insert_with(|| given.clone()), given);
        }
    }
}
