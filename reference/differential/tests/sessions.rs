//! What a session and the lent buffers decide before the text is looked at, and sessions that go through several runs.
//! Each answer is compared with the reference engine, and with document 01's order written down here.

use baqolluy::{Session, open};
use differential::compare::{Bench, close};
use reference::calls::Mode;
use reference::generator::random::Random;
use reference::generator::{Kind, text};

const A: &[u8] = b"010100010003\n01020000\n02020101030103004402004041\n\
02020201000102004501014401004041\n03440100450200\n";

const CLOSED: Session = Session {
    active: false,
    fuel: 0,
};

/// Texts with what each earns, checked and on trial: A is accepted, then refusals 1, 2, 3, 4, 6 and 7.
const TEXTS: [(&[u8], u8, u8); 7] = [
    (A, 0, 0),
    (b"", 1, 1),
    (b"04\n", 2, 2),
    (b"01010000\n", 3, 3),
    (b"03450100\n", 4, 4),
    (b"01010000\n02010101000100004140\n03450000\n", 6, 0),
    (b"0341\n", 7, 0),
];

/// Document 01, "From the state": 11, then 12, then 13, and the text only after them.
fn expected(session: Session, report: usize, work: usize, earned: u8) -> u8 {
    match (session.active, report, work) {
        (false, _, _) => 11,
        (_, ..=1_055, _) => 12,
        (_, _, ..=163_839) => 13,
        _ => earned,
    }
}

#[test]
fn state_refusals_come_in_order_and_before_the_text() {
    let mut bench = Bench::new(201);
    let odd = Session {
        active: false,
        fuel: 3,
    };
    let mut seen = [0; 14];
    for (text, checked, trial) in TEXTS {
        for (mode, earned) in [(Mode::Checked, checked), (Mode::Trial, trial)] {
            for session in [open(0), open(7), open(65_535), CLOSED, odd] {
                for report in [0, 1, 1_055, 1_056, 1_057] {
                    for work in [0, 1, 163_839, 163_840, 163_841] {
                        let wanted = expected(session, report, work, earned);
                        let ran = bench.run(mode, text, session, (report, work));
                        let ran = ran.unwrap_or_else(|difference| panic!("{difference}"));
                        assert_eq!(ran.answer.refusal, wanted);
                        if wanted != 0 {
                            assert_eq!((ran.answer.session, ran.answer.length), (session, 0));
                        }
                        seen[usize::from(wanted)] += 1;
                    }
                }
            }
        }
    }
    // 14 texts and modes; 2 of 5 sessions are closed; of the rest 3 of 5 reports are short, then 3 of 5 works.
    assert_eq!(seen[11..], [14 * 50, 14 * 3 * 15, 14 * 3 * 2 * 3]);
    assert!([0, 1, 2, 3, 4, 6, 7].iter().all(|&number| seen[number] > 0));
}

/// A refused run writes nothing and an accepted one only what document 01 says, told without the reference engine.
#[test]
fn bytes_that_stay() {
    for (text, checked, _) in TEXTS {
        for (report_length, work_length) in [(1_056, 163_840), (1_500, 170_000), (1_055, 163_840)] {
            let mut report = vec![0x5A; report_length];
            let mut work = vec![0xA5; work_length];
            let answer = baqolluy::run(text, b"", open(9), &mut report, &mut work);
            let wanted = expected(open(9), report_length, work_length, checked);
            assert_eq!(answer.refusal, wanted);
            let (length, zeroed) = if wanted == 0 { (11, 163_840) } else { (0, 0) };
            assert_eq!(usize::from(answer.length), length);
            assert_eq!(&report[..length], &b"0500010100\n"[..length]);
            assert!(report[length..].iter().all(|&byte| byte == 0x5A));
            assert!(work[..zeroed].iter().all(|&byte| byte == 0));
            assert!(work[zeroed..].iter().all(|&byte| byte == 0xA5));
        }
    }
}

/// Lengths that would pass for others if they were kept in 16 bits.
#[test]
fn very_long_buffers_and_texts() {
    let mut report = vec![0x5A; 65_536 + 5];
    let mut work = vec![0xA5; 3 * 65_536 + 5];
    let answer = baqolluy::run(A, b"", open(9), &mut report, &mut work);
    assert_eq!((answer.refusal, answer.length), (0, 11));
    assert!(report[11..].iter().all(|&byte| byte == 0x5A));
    assert!(work[..163_840].iter().all(|&byte| byte == 0));
    assert!(work[163_840..].iter().all(|&byte| byte == 0xA5));
    // A work buffer that is too short, and long enough without its 16th bit.
    let answer = baqolluy::run(A, b"", open(9), &mut report, &mut work[..2 * 65_536 + 5]);
    assert_eq!(answer.refusal, 13);
    let mut text = A.to_vec();
    text.resize(65_536 + A.len(), b'\n');
    assert_eq!(baqolluy::check(&text).refusal, 1);
    assert_eq!(baqolluy::read(&text).refusal, 1);
    for run in [baqolluy::run, baqolluy::trial] {
        let answer = run(&text, b"", open(9), &mut report, &mut work);
        assert_eq!((answer.refusal, answer.session), (1, open(9)));
    }
}

#[test]
fn opening_and_closing_with_every_fuel() {
    for fuel in 0..=65_535 {
        let session = open(fuel);
        assert_eq!(session, Session { active: true, fuel });
        let closing = close(session).unwrap_or_else(|difference| panic!("{difference}"));
        assert_eq!((closing.refusal, closing.session), (0, CLOSED));
        // "The same session", even one that no call would have made.
        let odd = Session {
            active: false,
            fuel,
        };
        let again = close(odd).unwrap_or_else(|difference| panic!("{difference}"));
        assert_eq!((again.refusal, again.session), (11, odd));
    }
}

#[test]
fn a_session_goes_through_its_runs() {
    // A takes 3 units: 7 are enough twice, and then one is left.
    let mut bench = Bench::new(202);
    let mut session = open(7);
    for (left, report) in [(4, "0500010100\n"), (1, "0500010100\n"), (0, "0702\n")] {
        let ran = bench.run_anyhow(Mode::Checked, A, session).unwrap();
        assert_eq!(ran.answer.session, open(left));
        assert_eq!(ran.report, report.as_bytes());
        session = ran.answer.session;
    }
}

/// Sessions that several generated programs draw on, then closed, then refused.
#[test]
fn generated_sessions() {
    let mut bench = Bench::new(203);
    let kinds = [Kind::Plain, Kind::Plain, Kind::IllTyped, Kind::Damaged];
    let (mut drawn, mut dry) = (0, 0);
    for number in 0..2_000 {
        let mut random = Random::for_case(203, number);
        let mut session = open(random.between(0, 60) as u16);
        for _ in 0..random.between(2, 6) {
            let kind = kinds[random.below(kinds.len())];
            let text = text(kind, &mut random);
            let mode = [Mode::Checked, Mode::Trial][random.below(2)];
            let ran = bench.run_anyhow(mode, &text, session);
            let ran = ran.unwrap_or_else(|difference| panic!("{difference}"));
            assert!(ran.answer.session.active && ran.answer.session.fuel <= session.fuel);
            drawn += usize::from(ran.answer.session != session);
            dry += usize::from(ran.answer.session.fuel == 0);
            session = ran.answer.session;
        }
        let closed = close(session).unwrap_or_else(|difference| panic!("{difference}"));
        assert_eq!((closed.refusal, closed.session), (0, CLOSED));
        assert_eq!(close(CLOSED).map(|closing| closing.refusal), Ok(11));
        let ran = bench.run_anyhow(Mode::Trial, A, CLOSED);
        let answer = ran
            .unwrap_or_else(|difference| panic!("{difference}"))
            .answer;
        assert_eq!((answer.refusal, answer.session), (11, CLOSED));
    }
    assert!(drawn > 1_500 && dry > 300, "{drawn} {dry}");
}
