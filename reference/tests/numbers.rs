//! Whole numbers (request 2026-02): the examples of its issue, one test a
//! letter, in both modes of this engine. More of them are in `number_types.rs`
//! and `tallies.rs`, the lengths of lent buffers in `calls.rs`.

mod common;

use common::{checked, slashed, trial};

/// A checked run of an input whose lines are parted by `/`.
fn gives(fuel: u16, input: &str, output: &str, left: u16) {
    let ran = checked(fuel, slashed(input).as_bytes());
    assert_eq!(ran, (slashed(output), left), "{input}");
}

/// The same with `linerun`'s fuel, none of which is spent.
fn gives_at_once(input: &str, output: &str) {
    gives(1_000, input, output, 1_000);
}

#[test]
fn a_literals_sums_and_differences() {
    gives_at_once("0346002A/", "0800FE00/09002A/");
    gives_at_once("03474600FF460001/", "0800FE00/090100/");
    gives_at_once("0348460003460005/", "0800FE00/090000/");
    gives_at_once("034645FF/", "0800FE00/0945FF/");
}

#[test]
fn b_a_sum_above_65535() {
    gives_at_once("034746FFFF460001/", "0800FE00/0705/");
    gives_at_once("034746FFFE460001/", "0800FE00/09FFFF/");
}

#[test]
fn c_nesting_and_unfinished_expressions() {
    let sums = |count: usize| format!("03{}{}/", "47".repeat(count), "460001".repeat(count + 1));
    gives_at_once(&sums(5), "0800FE00/090006/");
    gives_at_once(&sums(6), "0802/");
    gives_at_once("034600/", "0802/");
}

#[test]
fn d_equal_numbers_in_equal_objects() {
    let program =
        |last: &str| format!("01010001FE00/0102000200000000/034502024501014600054501014600{last}/");
    let one = "08000200/050002020101/05010101FE0005/";
    gives_at_once(&program("05"), one);
    let two = "08000200/050002020102/05010101FE0005/05020101FE0006/";
    gives_at_once(&program("06"), two);
}

#[test]
fn e_a_tally() {
    let method = "020101FE00FE0001FE0049420047420044010140484200460001460000460000/";
    let input = format!("01010000/{method}03440101450100460004/");
    gives(30, &input, "0800FE00/09000A/", 25);
}

#[test]
fn f_counting_down() {
    let method = "0201010103010301FE00494200440101404842004600014041/";
    let input = format!("01010000/{method}03440101450100460003/");
    gives(3, &input, "08000103/0702/", 0);
    gives(4, &input, "08000103/05000100/", 0);
}

#[test]
fn g_calls_met_again_by_equal_numbers() {
    let method = "0201010200020201FE0045020242004401014048460001420041/";
    let input = format!("01010000/01020002FE000203/{method}03440101450100460000/");
    let ring = "08000200/05000202FE000001/05010202FE000100/";
    gives(10, &input, ring, 7);
}

#[test]
fn h_one_branch_and_the_wider_type() {
    let program =
        |class: &str, number: &str| format!("01010000/{class}/034946{number}450100450200/");
    gives_at_once(&program("01020100", "0001"), "08000100/05000100/");
    gives_at_once(&program("01020100", "FFFF"), "08000100/05000100/");
    gives_at_once(&program("01020100", "0000"), "08000100/05000200/");
    gives_at_once(&program("01020000", "0001"), "0807/");
}

#[test]
fn i_an_operand_that_is_no_number_is_stuck_before_the_next() {
    let class = "01010000/02010101000100004040/";
    let run = |main: &str| trial(5, slashed(&format!("{class}{main}")).as_bytes());
    let stuck = |left| ("0701\n".to_string(), left);
    assert_eq!(run("0347450000440100450100/"), stuck(5));
    assert_eq!(run("0347440100450100450000/"), stuck(4));
}

#[test]
fn j_numbers_do_not_fit_object() {
    let input = "010100010000/03450101460005/";
    gives_at_once(input, "0807/");
    let report = ("05000101FE0005\n".to_string(), 1_000);
    assert_eq!(trial(1_000, slashed(input).as_bytes()), report);
}

#[test]
fn k_no_class_of_an_object() {
    gives_at_once("0345FE00/", "0804/");
    gives_at_once("01010000/02FE0101000100004040/03450000/", "0804/");
    gives_at_once("04FE004200/05000000/", "0804/");
    gives_at_once("0101FE00/03450000/", "0804/");
}

#[test]
fn l_numbers_in_batch_texts() {
    let on = |second: &str, output: &str| {
        gives_at_once(&format!("01010002FE000103/04010043004200/{second}"), output);
    };
    on("05000102FE0102FF/", "0800FE00/090102/");
    on("05000102FE01FF/", "080E/");
    on("05000102FFFF/", "080F/");
    on("0500010200FF/", "080F/");
    on("05000102FE0001FE0002/", "080F/");
    on("0500FE00/", "080E/");
}

#[test]
fn m_a_sum_is_judged_after_both_operands() {
    let method = "020101FE00FE000046FFFF460000/";
    let input = format!("01010000/{method}0347440100450100440100450100/");
    gives(1, &input, "0800FE00/0702/", 0);
    gives(2, &input, "0800FE00/0705/", 0);
}

#[test]
fn n_a_method_d0_changes_no_fit() {
    let classes: String = (1..=13)
        .map(|class| format!("01{class:02X}0000/"))
        .collect();
    let input = format!("{classes}010E00010100/020DD00D000D00004040/03450E01460005/");
    gives_at_once(&input, "0807/");
}

#[test]
fn o_tags_of_numbers() {
    let undetermined = "01010001FE03/0401004200/05000101FF/";
    gives_at_once(undetermined, "08000100/05000101FF/");
    let endless = "01010000/020101FE03FE03004401004041/03440100450100/";
    gives(1_000, endless, "0800FE03/06/", 998);
}
