//! Main frames `04` made by hand: their refusals, what main may name, its type,
//! and their writing. In texts `/` stands for LF.

mod common;

use common::{refuses, reports, run_on, slashed};
use reference::builder::*;
use reference::calls::{Mode, check};
use reference::fast;
use reference::reading::read;
use reference::refusals::Refusal::*;
use reference::syntax::{Table, Type};
use reference::writing::{text, write};

/// Class 1, class 2 below it with fields 1+ and 0-, class 3 with a field 2+.
const CLASSES: &str = "01010000/0102010201000003/010300010200/";

#[test]
fn frames_04_too_short_or_too_long() {
    for frame in ["04", "0400", "040000", "04000042", "0400004300", "04000045"] {
        refuses(&format!("{CLASSES}{frame}/"), "05000000/", Frame);
    }
    refuses(&format!("{CLASSES}040000420000/"), "05000000/", Frame);
    // Six levels pass, seven do not.
    let deep = |levels: usize| format!("{CLASSES}040100{}4200/", "4300".repeat(levels));
    assert!(read(slashed(&deep(5)).as_bytes()).is_ok());
    refuses(&deep(6), "05000100/", Frame);
}

#[test]
fn tags_and_classes_of_an_04_frame() {
    for tag in ["01", "02", "03"] {
        refuses(&format!("{CLASSES}0401{tag}4200/"), "05000100/", Classes);
    }
    for tag in ["04", "05", "40", "FF"] {
        refuses(&format!("{CLASSES}0401{tag}4200/"), "05000100/", Frame);
    }
    for class in ["04", "20", "21", "FF"] {
        refuses(&format!("{CLASSES}04{class}004200/"), "05000100/", Classes);
    }
    reports(&format!("{CLASSES}0400004200/"), "05000100/", "05000100/");
    reports("0400004200/", "05000000/", "05000000/");
    refuses(&format!("{CLASSES}040100450400/"), "05000100/", Classes);
}

#[test]
fn one_main_in_all_and_in_its_place() {
    let (class, method) = ("01010000", "02010101000100004040");
    let (plain, batch) = ("03450000", "0401004200");
    let wrong: [&[&str]; 7] = [
        &[class, batch, plain],
        &[class, plain, batch],
        &[class, batch, batch],
        &[batch, class],
        &[class, batch, method],
        &[batch],
        &[class, method, batch, class],
    ];
    for frames in wrong {
        let refusal = if frames.len() == 1 { Classes } else { Order };
        refuses(&format!("{}/", frames.join("/")), "05000100/", refusal);
    }
    reports(
        &format!("{class}/{method}/{batch}/"),
        "05000100/",
        "05000100/",
    );
}

#[test]
fn check_and_read_know_no_second_text() {
    let program = slashed(&format!("{CLASSES}0401004200/"));
    let one = Type { class: 1, tag: 0 };
    assert_eq!(check(program.as_bytes()), Ok(one));
    assert_eq!(fast::check(program.as_bytes()), Ok(one));
    assert_eq!(fast::read(program.as_bytes()), Ok(()));
    let table = read(program.as_bytes()).unwrap();
    assert_eq!(table.input, Some(one));
}

#[test]
fn main_names_parameter_0_and_nothing_else() {
    for main in [
        "40",
        "41",
        "4201",
        "42FF",
        "430040",
        "45020140",
        "440101404200",
    ] {
        let program = slashed(&format!("{CLASSES}040100{main}/"));
        let run = |mode| run_on(mode, 9, program.as_bytes(), b"05000100\n").0;
        assert_eq!(run(Mode::Checked), "0807\n", "{main}");
        assert_eq!(run(Mode::Trial), "0701\n", "{main}");
    }
    // Parameter 0 is none of an 03 main.
    let run = |mode| run_on(mode, 9, b"034200\n", b"").0;
    assert_eq!(run(Mode::Checked), "0807\n");
    assert_eq!(run(Mode::Trial), "0701\n");
}

#[test]
fn calls_in_an_04_main_have_their_first_result() {
    // A method with results 1- and 0-, on the parameter: main has type 1-.
    let program = slashed("01010000/02010101030003004040/0401004401004200/");
    let (output, left) = run_on(Mode::Checked, 9, program.as_bytes(), b"05000100\n");
    assert_eq!(output, slashed("08000103/05000100/"));
    assert_eq!(left, 8);
}

fn unwritable(table: &Table) {
    assert_eq!(text(table), None);
    assert_eq!(write(table, &mut [0; 49_567]), Err(Unwritable));
}

#[test]
fn tables_with_an_input_are_written() {
    let mut p = Program::start();
    let c = p.class(0, &[]);
    let table = p.batch_table(c, param(0));
    assert_eq!(
        text(&table),
        Some(slashed("01010000/0401004200/").into_bytes())
    );
    for input in [plus(2), minus(1), plus_open(1), minus_open(1)] {
        let input = Some(input);
        unwritable(&Table {
            input,
            ..table.clone()
        });
    }
    let input = Some(Type { class: 1, tag: 4 });
    unwritable(&Table { input, ..table });
}
