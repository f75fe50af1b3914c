//! The call that shows what `linerun` writes, through the proved engine: the lent buffers ahead of the input, where an
//! input is cut, how much of it decides, and generated inputs. Each answer is compared with the reference engine, and
//! with what a run and a check give.

use baqolluy::{REPORT_LENGTH, SHOWN_LENGTH, Shown, WORK_LENGTH, open};
use differential::show::{output, show};
use reference::generator::batch;
use reference::generator::random::Random;
use reference::generator::{Kind, text};
use reference::linerun::{FUEL, INPUT_LENGTH, cut};

const A: &[u8] = b"010100010003\n01020000\n02020101030103004402004041\n\
02020201000102004501014401004041\n03440100450200\n";

const NOTHING: Shown = Shown {
    refusal: 0,
    verdict_length: 0,
    verdict: [0; 9],
    length: 0,
};

#[test]
fn the_lent_buffers_come_before_the_input() {
    for input in [A, b"", b"0341\n", b"0400004200\n"] {
        for (report, work, refusal) in [
            (0, 0, 12),
            (1_055, 163_840, 12),
            (1_055, 0, 12),
            (1_056, 0, 13),
            (1_056, 163_839, 13),
            (70_000, 2 * 65_536 + 5, 13),
        ] {
            // That nothing is written is seen by `show`: the reference engine writes nothing.
            let (shown, lent) = show(input, report, work);
            assert_eq!(shown, Shown { refusal, ..NOTHING });
            assert!(lent.iter().all(|&byte| byte == 0x5A));
        }
    }
}

#[test]
fn verdicts_and_reports() {
    let (shown, report) = show(A, 1_056, 163_840);
    assert_eq!(
        shown,
        Shown {
            refusal: 0,
            verdict_length: 9,
            verdict: *b"08000103\n",
            length: 11
        }
    );
    assert_eq!(&report[..11], b"0500010100\n");
    assert!(report[11..].iter().all(|&byte| byte == 0x5A));
    let refused = |line: &[u8; 5]| {
        let mut verdict = [0; 9];
        verdict[..5].copy_from_slice(line);
        Shown {
            verdict_length: 5,
            verdict,
            ..NOTHING
        }
    };
    for (input, line) in [
        (&b""[..], b"0801\n"),
        (b"0345\n", b"0802\n"),
        (b"01010000\n", b"0803\n"),
        (b"0345FE00\n", b"0804\n"),
        (b"0341\n", b"0807\n"),
        (b"0400004200\n", b"080E\n"),
        (b"01010000\n0401004200\n05000000\n", b"080F\n"),
    ] {
        let (shown, report) = show(input, 1_200, 164_000);
        assert_eq!(shown, refused(line));
        assert!(report.iter().all(|&byte| byte == 0x5A));
    }
}

/// No character after those that decide changes the answer, whatever they are.
#[test]
fn how_much_of_an_input_decides() {
    assert_eq!((SHOWN_LENGTH, INPUT_LENGTH), (57_950, 57_950));
    let program = &b"01010004FE00FE00FE00FE00\n0401004200\n"[..];
    let line = |number: usize| format!("05{number:02X}0104FE0001FEFFFFFE4546FE0000\n");
    let parts: String = (0..254).map(line).collect();
    let both = [program, parts.as_bytes()].concat();
    assert_eq!(
        output(&both),
        "08000100\n05000104FE0001FEFFFFFE4546FE0000\n"
    );
    for more in [&b"0"[..], b"\n", &b"0500".repeat(20_000)] {
        assert_eq!(output(&[&both[..], more].concat()), "080E\n");
    }
    // 97 lines of 255 bytes are as long as a first text can be; the last begins 04 here, so that a second one follows it.
    let line = [&b"00".repeat(255)[..], b"\n"].concat();
    let longest = line.repeat(97);
    let first = [&line.repeat(96)[..], b"04", &line[2..]].concat();
    assert_eq!((longest.len(), first.len()), (49_567, 49_567));
    for second in [&b""[..], parts.as_bytes(), &b"x".repeat(9_000)] {
        let input = [&first[..], second].concat();
        assert_eq!(output(&input), "0802\n");
        assert_eq!(output(&input[..input.len().min(SHOWN_LENGTH)]), "0802\n");
    }
    assert_eq!(output(&longest), "0802\n");
    assert_eq!(output(&[&longest[..], b"0"].concat()), "0801\n");
}

/// What is shown is what a run with `linerun`'s fuel and a check give for the two texts.
fn assert_is_a_run(input: &[u8]) -> u8 {
    let shown = output(input);
    let (text, second) = cut(input);
    let (mut report, mut work) = (vec![0; REPORT_LENGTH], vec![0; WORK_LENGTH]);
    let answer = baqolluy::run(text, second, open(FUEL), &mut report, &mut work);
    let verdict = match answer.refusal {
        0 => {
            let main = baqolluy::check(text);
            format!("0800{:02X}{:02X}\n", main.class, main.tag)
        }
        refusal => format!("08{refusal:02X}\n"),
    };
    let report = String::from_utf8_lossy(&report[..usize::from(answer.length)]);
    assert_eq!(shown, format!("{verdict}{report}"));
    answer.refusal
}

#[test]
fn generated_inputs() {
    let mut refusals = [0; 16];
    for kind in [
        Kind::Typed,
        Kind::Limits,
        Kind::IllTyped,
        Kind::Damaged,
        Kind::Rings,
    ] {
        for number in 0..1_000 {
            let text = text(kind, &mut Random::for_case(501, number));
            refusals[usize::from(assert_is_a_run(&text))] += 1;
        }
    }
    for kind in batch::Kind::ALL {
        for number in 0..1_000 {
            let batch = batch::draw(kind, &mut Random::for_case(502, number));
            let input = [batch.text, batch.second].concat();
            refusals[usize::from(assert_is_a_run(&input))] += 1;
        }
    }
    for refusal in [0, 1, 2, 3, 4, 5, 6, 7, 14, 15] {
        assert!(refusals[refusal] > 50, "{refusals:?}");
    }
}
