//! Request 2026-01, from the bytes of two texts to the bytes written and the
//! fuel left, in both engines. Most are run in both modes: a trial run gives the
//! report of a checked one, or its refusal. In texts `/` stands for LF.

mod common;

use common::{run_on, slashed};
use reference::calls::Mode;
use reference::linerun;

/// A checked run of an input as `linerun` cuts it, and the fuel left.
fn checked(fuel: u16, input: &str) -> (String, u16) {
    let input = slashed(input);
    let (text, second) = linerun::cut(input.as_bytes());
    run_on(Mode::Checked, fuel, text, second)
}

fn trial(fuel: u16, input: &str) -> (String, u16) {
    let input = slashed(input);
    let (text, second) = linerun::cut(input.as_bytes());
    run_on(Mode::Trial, fuel, text, second)
}

/// Both modes give this report after this verdict, and leave this fuel.
fn reports(fuel: u16, input: &str, verdict: &str, report: &str, left: u16) {
    let whole = slashed(&format!("{verdict}{report}"));
    assert_eq!(checked(fuel, input), (whole, left), "{input}");
    assert_eq!(trial(fuel, input), (slashed(report), left), "{input}");
}

/// Both modes refuse with this number, and spend nothing.
fn refuses(input: &str, number: u8) {
    let line = format!("08{number:02X}\n");
    for fuel in [0, 1_000] {
        assert_eq!(checked(fuel, input), (line.clone(), fuel), "{input}");
        assert_eq!(trial(fuel, input), (line.clone(), fuel), "{input}");
    }
}

/// Class 1 and two classes 2 and 3 below it, each with a field 1+.
const TWO_LETTERS: &str = "01010000/010201010100/010301010100/";

#[test]
fn a_a_ring_cut_as_four_parts() {
    let parts = "0500020101/0501030102/0502020103/0503030100/05040100/";
    let input = format!("{TWO_LETTERS}04020043004200/{parts}");
    let report = "0500030101/0501020100/";
    reports(1_000, &input, "08000100/", report, 1_000);
}

#[test]
fn b_the_same_ring_cut_as_two_parts() {
    let input = format!("{TWO_LETTERS}04020043004200/0500020101/0501030100/");
    let report = "0500030101/0501020100/";
    reports(1_000, &input, "08000100/", report, 1_000);
}

/// m(z, ring): m is met again if the ring that came in is the one `ring` makes.
const MET: &str = "01010000/010201010100/01030000/02030102000202004502014401004041/\
02030201030103020100010044020240420142004201/0401004402024503004200440100450300/";

#[test]
fn c_a_call_is_met_again_by_the_value_that_came_in() {
    let input = format!("{MET}0500020101/0501020102/0502020100/");
    reports(4, &input, "08000103/", "0500020100/", 0);
    reports(3, &input, "08000103/", "0702/", 0);
}

#[test]
fn c_a_list_is_not_the_ring() {
    let input = format!("{MET}0500020101/0501020102/05020100/");
    reports(4, &input, "08000103/", "0702/", 0);
    reports(5, &input, "08000103/", "0500020100/", 0);
}

#[test]
fn d_undetermined_at_minus_and_plus_places() {
    let input = "010100010003/0401004200/05000101FF/";
    reports(1_000, input, "08000100/", "05000101FF/", 1_000);
    refuses("010100010000/0401004200/05000101FF/", 15);
}

#[test]
fn e_parts_not_reached_are_dropped() {
    let input = "010100010000/0401004200/0500010100/0501010102/05020000/";
    reports(1_000, input, "08000100/", "0500010100/", 1_000);
}

#[test]
fn f_no_such_list() {
    let lists = [
        "",
        "0501010100/",
        "0500010101/",
        "05000100/",
        "0500020100/",
        "05000101ff/",
        "0500010100",
    ];
    for list in lists {
        refuses(&format!("010100010000/0401004200/{list}"), 14);
    }
}

#[test]
fn g_each_place_that_holds_a_part_counts() {
    let head = "01010000/01020100/0103000201000200/0403004200/";
    let fitting = format!("{head}050003020101/05010200/");
    let report = "050003020101/05010200/";
    reports(1_000, &fitting, "08000300/", report, 1_000);
    refuses(&format!("{head}050003020101/05010100/"), 15);
}

#[test]
fn h_where_linerun_cuts() {
    refuses("0400004200/03450000/", 14);
    refuses("0400004200", 1);
    refuses("03450000/0400004200/05000000/", 3);
    refuses("03450000/05000000/", 2);
    refuses("0400034200/05000000/", 4);
    refuses("0400044200/05000000/", 2);
    refuses("0401004200/05000000/", 4);
}

#[test]
fn i_types_come_before_the_second_text() {
    let input = "010100010103/04010040/";
    assert_eq!(checked(1_000, input), ("0807\n".to_string(), 1_000));
    assert_eq!(trial(1_000, input), ("080E\n".to_string(), 1_000));
}

/// A ring of so many parts, each of a class by its number.
fn ring(count: usize, class: impl Fn(usize) -> u8) -> String {
    let part = |number| {
        let next = (number + 1) % count;
        format!("05{number:02X}{:02X}01{next:02X}/", class(number))
    };
    (0..count).map(part).collect()
}

#[test]
fn j_254_lines_and_one_more() {
    let input = format!("{TWO_LETTERS}0401004200/{}", ring(254, |_| 2));
    reports(1_000, &input, "08000100/", "0500020100/", 1_000);
    refuses(&format!("{input}05FE0100/"), 14);
    refuses(&format!("{TWO_LETTERS}0401004200/{}", ring(255, |_| 2)), 14);
}

#[test]
fn k_33_distinct_parts_and_32() {
    let letter = |period| move |number| if number % period == 0 { 3 } else { 2 };
    let head = format!("{TWO_LETTERS}0401004200/");
    refuses(&format!("{head}{}", ring(231, letter(33))), 15);
    let input = format!("{head}{}", ring(224, letter(32)));
    let report = ring(32, letter(32));
    assert!(report.starts_with("0500030101/0501020102/") && report.ends_with("/051F020100/"));
    reports(1_000, &input, "08000100/", &report, 1_000);
}
