//! Request 2026-02 through the proved engine: the examples a to o of its issue, one test a letter, from the bytes of an
//! input to the bytes written and the fuel left. Each run is compared with the reference engine too, in buffers full of
//! junk, and each with `linerun`'s fuel also as the program is shown. Then the buffers, told without the reference engine. In texts `/`
//! stands for LF.

use baqolluy::{Session, open};
use differential::compare::{output_on, slashed};
use differential::show;
use reference::calls::Mode;
use reference::linerun;

fn ran(mode: Mode, fuel: u16, input: &str) -> (String, u16) {
    let input = slashed(input);
    let (text, second) = linerun::cut(input.as_bytes());
    output_on(mode, fuel, text, second)
}

fn trial(fuel: u16, input: &str) -> (String, u16) {
    ran(Mode::Trial, fuel, input)
}

/// A checked run gives this output and leaves this fuel.
fn gives(fuel: u16, input: &str, output: &str, left: u16) {
    assert_eq!(
        ran(Mode::Checked, fuel, input),
        (slashed(output), left),
        "{input}"
    );
    if fuel == linerun::FUEL {
        assert_eq!(
            show::output(slashed(input).as_bytes()),
            slashed(output),
            "{input}"
        );
    }
}

/// The same with `linerun`'s fuel, none of which is spent.
fn gives_at_once(input: &str, output: &str) {
    gives(1_000, input, output, 1_000);
}

#[test]
fn a_literals_sums_and_differences() {
    gives_at_once("0346002A/", "0800FE00/09002A/");
    gives_at_once("03474600FF460001/", "0800FE00/090100/");
    gives_at_once("0348460003460005/", "0800FE00/090000/");
    gives_at_once("034645FF/", "0800FE00/0945FF/");
}

#[test]
fn b_a_sum_above_65535() {
    gives_at_once("034746FFFF460001/", "0800FE00/0705/");
    gives_at_once("034746FFFE460001/", "0800FE00/09FFFF/");
}

#[test]
fn c_nesting_and_unfinished_expressions() {
    let sums = |count: usize| format!("03{}{}/", "47".repeat(count), "460001".repeat(count + 1));
    gives_at_once(&sums(5), "0800FE00/090006/");
    gives_at_once(&sums(6), "0802/");
    gives_at_once("034600/", "0802/");
}

#[test]
fn d_equal_numbers_in_equal_objects() {
    let program =
        |last: &str| format!("01010001FE00/0102000200000000/034502024501014600054501014600{last}/");
    let one = "08000200/050002020101/05010101FE0005/";
    gives_at_once(&program("05"), one);
    let two = "08000200/050002020102/05010101FE0005/05020101FE0006/";
    gives_at_once(&program("06"), two);
}

#[test]
fn e_a_tally() {
    let method = "020101FE00FE0001FE0049420047420044010140484200460001460000460000/";
    let input = format!("01010000/{method}03440101450100460004/");
    gives(30, &input, "0800FE00/09000A/", 25);
}

#[test]
fn f_counting_down() {
    let method = "0201010103010301FE00494200440101404842004600014041/";
    let input = format!("01010000/{method}03440101450100460003/");
    gives(3, &input, "08000103/0702/", 0);
    gives(4, &input, "08000103/05000100/", 0);
}

#[test]
fn g_calls_met_again_by_equal_numbers() {
    let method = "0201010200020201FE0045020242004401014048460001420041/";
    let input = format!("01010000/01020002FE000203/{method}03440101450100460000/");
    let ring = "08000200/05000202FE000001/05010202FE000100/";
    gives(10, &input, ring, 7);
}

#[test]
fn h_one_branch_and_the_wider_type() {
    let program =
        |class: &str, number: &str| format!("01010000/{class}/034946{number}450100450200/");
    gives_at_once(&program("01020100", "0001"), "08000100/05000100/");
    gives_at_once(&program("01020100", "FFFF"), "08000100/05000100/");
    gives_at_once(&program("01020100", "0000"), "08000100/05000200/");
    gives_at_once(&program("01020000", "0001"), "0807/");
}

#[test]
fn i_an_operand_that_is_no_number_is_stuck_before_the_next() {
    let class = "01010000/02010101000100004040/";
    let run = |main: &str| trial(5, &format!("{class}{main}"));
    let stuck = |left| ("0701\n".to_string(), left);
    assert_eq!(run("0347450000440100450100/"), stuck(5));
    assert_eq!(run("0347440100450100450000/"), stuck(4));
}

#[test]
fn j_numbers_do_not_fit_object() {
    let input = "010100010000/03450101460005/";
    gives_at_once(input, "0807/");
    let report = ("05000101FE0005\n".to_string(), 1_000);
    assert_eq!(trial(1_000, input), report);
}

#[test]
fn k_no_class_of_an_object() {
    gives_at_once("0345FE00/", "0804/");
    gives_at_once("01010000/02FE0101000100004040/03450000/", "0804/");
    gives_at_once("04FE004200/05000000/", "0804/");
    gives_at_once("0101FE00/03450000/", "0804/");
}

#[test]
fn l_numbers_in_batch_texts() {
    let on = |second: &str, output: &str| {
        gives_at_once(&format!("01010002FE000103/04010043004200/{second}"), output);
    };
    on("05000102FE0102FF/", "0800FE00/090102/");
    on("05000102FE01FF/", "080E/");
    on("05000102FFFF/", "080F/");
    on("0500010200FF/", "080F/");
    on("05000102FE0001FE0002/", "080F/");
    on("0500FE00/", "080E/");
}

#[test]
fn m_a_sum_is_judged_after_both_operands() {
    let method = "020101FE00FE000046FFFF460000/";
    let input = format!("01010000/{method}0347440100450100440100450100/");
    gives(1, &input, "0800FE00/0702/", 0);
    gives(2, &input, "0800FE00/0705/", 0);
}

#[test]
fn n_a_method_d0_changes_no_fit() {
    let classes: String = (1..=13)
        .map(|class| format!("01{class:02X}0000/"))
        .collect();
    let input = format!("{classes}010E00010100/020DD00D000D00004040/03450E01460005/");
    gives_at_once(&input, "0807/");
}

#[test]
fn o_tags_of_numbers() {
    let undetermined = "01010001FE03/0401004200/05000101FF/";
    gives_at_once(undetermined, "08000100/05000101FF/");
    let endless = "01010000/020101FE03FE03004401004041/03440100450100/";
    gives(1_000, endless, "0800FE03/06/", 998);
}

/// The State paragraph: 12 under 1,056 bytes, 13 under 163,840; the last of these is zero after a run, and the next stays.
#[test]
fn lengths_of_the_lent_buffers() {
    let text = b"0346002A\n";
    let session: Session = open(3);
    for run in [baqolluy::run, baqolluy::trial] {
        for (report_length, work_length, refusal) in [
            (1_055, 163_840, 12),
            (1_055, 163_839, 12),
            (1_056, 163_839, 13),
            (1_056, 163_840, 0),
            (1_056, 163_841, 0),
        ] {
            let mut report = vec![0x5A; report_length];
            let mut work = vec![0xA5; work_length];
            let answer = run(text, b"", session, &mut report, &mut work);
            assert_eq!((answer.refusal, answer.session), (refusal, session));
            let (length, zeroed) = if refusal == 0 { (7, 163_840) } else { (0, 0) };
            assert_eq!(usize::from(answer.length), length);
            assert_eq!(&report[..length], &b"09002A\n"[..length]);
            assert!(report[length..].iter().all(|&byte| byte == 0x5A));
            assert!(work[..zeroed].iter().all(|&byte| byte == 0));
            assert!(work[zeroed..].iter().all(|&byte| byte == 0xA5));
        }
    }
}

/// The longest report: 32 objects of four fields, as many numbers in them as can be.
#[test]
fn a_report_of_the_greatest_length() {
    // A ring leaves one field of each to the next; objects of numbers alone need something that leads to them.
    let part = |place: usize| {
        format!(
            "05{place:02X}0104{:02X}FEFFFFFE4546FE00{place:02X}/",
            (place + 1) % 32
        )
    };
    let ring: String = (0..32).map(part).collect();
    let input = format!("010100040100FE00FE00FE00/0401004200/{ring}");
    gives(1_000, &input, &format!("08000100/{ring}"), 1_000);
}
