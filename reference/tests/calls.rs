//! Refusals 8, 9, 11, 12 and 13, sessions, and the bytes of lent buffers.

use reference::builder::*;
use reference::calls::{Answer, Mode, Session, close, open, run};
use reference::reading::read;
use reference::refusals::Refusal::{self, *};
use reference::syntax::{Class, Expr, Method as MethodFrame, Table};
use reference::writing::write;

const A: &[u8] = b"010100010003\n01020000\n02020101030103004402004041\n\
02020201000102004501014401004041\n03440100450200\n";

const REPORT: &[u8] = b"0500010100\n";

/// A run on buffers of these lengths filled with 5A, which come back too.
fn run_in(
    mode: Mode,
    text: &[u8],
    session: Session,
    (report, work): (usize, usize),
) -> (Answer, Vec<u8>, Vec<u8>) {
    let mut report = vec![0x5A; report];
    let mut work = vec![0x5A; work];
    let answer = run(mode, text, session, &mut report, &mut work);
    (answer, report, work)
}

fn refused_untouched(
    mode: Mode,
    text: &[u8],
    session: Session,
    lengths: (usize, usize),
) -> Refusal {
    let (answer, report, work) = run_in(mode, text, session, lengths);
    assert_eq!(answer.session, session);
    assert_eq!(answer.length, 0);
    assert!(report.iter().chain(&work).all(|&byte| byte == 0x5A));
    answer.refusal.expect("a refusal")
}

const BIG: (usize, usize) = (1_056, 163_840);
const CLOSED: Session = Session {
    open: false,
    fuel: 0,
};

#[test]
fn a_run_writes_its_report_and_zeroes_its_work() {
    for mode in [Mode::Checked, Mode::Trial] {
        for (report, work) in [BIG, (1_057, 163_841), (2_000, 170_000)] {
            let (answer, report, work) = run_in(mode, A, open(10), (report, work));
            let session = Session {
                open: true,
                fuel: 7,
            };
            let expected = Answer {
                refusal: None,
                session,
                length: REPORT.len(),
            };
            assert_eq!(answer, expected);
            assert_eq!(&report[..REPORT.len()], REPORT);
            assert!(report[REPORT.len()..].iter().all(|&byte| byte == 0x5A));
            assert!(work[..163_840].iter().all(|&byte| byte == 0));
            assert!(work[163_840..].iter().all(|&byte| byte == 0x5A));
        }
    }
}

#[test]
fn state_refusals_come_in_order_and_before_the_text() {
    for mode in [Mode::Checked, Mode::Trial] {
        for text in [A, b"" as &[u8], b"0341\n"] {
            let refusal = |session, lengths| refused_untouched(mode, text, session, lengths);
            assert_eq!(refusal(CLOSED, (0, 0)), Closed);
            assert_eq!(refusal(CLOSED, BIG), Closed);
            assert_eq!(refusal(open(5), (1_055, 0)), ReportBuffer);
            assert_eq!(refusal(open(5), (1_055, 163_840)), ReportBuffer);
            assert_eq!(refusal(open(5), (1_056, 163_839)), WorkBuffer);
            assert_eq!(refusal(open(0), (9_999, 0)), WorkBuffer);
        }
    }
}

#[test]
fn input_refusals_write_nothing() {
    let six = b"01010000\n02010101000100004140\n0341\n";
    for mode in [Mode::Checked, Mode::Trial] {
        assert_eq!(refused_untouched(mode, b"", open(5), BIG), LineForm);
        assert_eq!(refused_untouched(mode, b"04\n", open(5), BIG), Frame);
        assert_eq!(refused_untouched(mode, b"01010000\n", open(5), BIG), Order);
        assert_eq!(
            refused_untouched(mode, b"03450100\n", open(5), BIG),
            Classes
        );
    }
    assert_eq!(refused_untouched(Mode::Checked, six, open(5), BIG), Method);
    assert_eq!(
        refused_untouched(Mode::Checked, b"0341\n", open(5), BIG),
        Main
    );
    // A trial run never gives 6 or 7.
    let (answer, ..) = run_in(Mode::Trial, six, open(5), BIG);
    assert_eq!((answer.refusal, answer.length), (None, 5));
}

#[test]
fn a_session_keeps_what_its_runs_leave() {
    let (answer, ..) = run_in(Mode::Checked, A, open(7), BIG);
    assert_eq!(
        answer.session,
        Session {
            open: true,
            fuel: 4
        }
    );
    let (answer, ..) = run_in(Mode::Trial, A, answer.session, BIG);
    assert_eq!(
        answer.session,
        Session {
            open: true,
            fuel: 1
        }
    );
    // The third runs out after one call, and leaves nothing.
    let (answer, report, _) = run_in(Mode::Checked, A, answer.session, BIG);
    assert_eq!(
        answer.session,
        Session {
            open: true,
            fuel: 0
        }
    );
    assert_eq!(&report[..answer.length], b"0702\n");
}

#[test]
fn closing_sets_the_fuel_to_0_and_is_done_once() {
    let closed = close(open(65_535));
    assert_eq!(
        closed,
        Answer {
            refusal: None,
            session: CLOSED,
            length: 0
        }
    );
    let again = close(closed.session);
    assert_eq!(
        again,
        Answer {
            refusal: Some(Closed),
            session: CLOSED,
            length: 0
        }
    );
    // "The same session", even one no call would have made.
    let odd = Session {
        open: false,
        fuel: 3,
    };
    assert_eq!(close(odd).session, odd);
}

fn written(table: &Table, length: usize) -> (Result<usize, Refusal>, Vec<u8>) {
    let mut buffer = vec![0x5A; length];
    let result = write(table, &mut buffer);
    (result, buffer)
}

#[test]
fn the_writer_gives_back_what_was_read() {
    let table = read(A).unwrap();
    for length in [49_567, 49_568, 60_000] {
        let (result, buffer) = written(&table, length);
        assert_eq!(result, Ok(A.len()));
        assert_eq!(&buffer[..A.len()], A);
        assert!(buffer[A.len()..].iter().all(|&byte| byte == 0x5A));
    }
}

fn unwritable(table: &Table) {
    for length in [0, 49_567] {
        let (result, buffer) = written(table, length);
        assert_eq!(result, Err(Unwritable));
        assert!(buffer.iter().all(|&byte| byte == 0x5A));
    }
}

#[test]
fn refusal_9_a_short_buffer() {
    for length in [0, A.len(), 49_566] {
        let (result, buffer) = written(&read(A).unwrap(), length);
        assert_eq!(result, Err(TextBuffer));
        assert!(buffer.iter().all(|&byte| byte == 0x5A));
    }
}

/// One class without fields and one method, which the closure may spoil.
fn spoiled(change: impl Fn(&mut Table)) -> Table {
    let mut p = Program::start();
    let c = p.class(0, &[]);
    p.method((c, 1), (plus(c), plus(c)), &[], (this(), this()));
    let mut table = p.table(new(c, []));
    assert!(written(&table, 49_567).0.is_ok());
    change(&mut table);
    table
}

#[test]
fn refusal_8_counts() {
    let class = Class {
        parent: 0,
        fields: Vec::new(),
    };
    for count in [33, 256, 300] {
        unwritable(&spoiled(|t| t.classes = vec![class.clone(); count]));
    }
    let named = |t: &Table, name| MethodFrame {
        name,
        ..t.methods[0].clone()
    };
    unwritable(&spoiled(|t| {
        t.methods = (0..65).map(|name| named(t, name)).collect()
    }));
    for count in [5, 256, 260] {
        unwritable(&spoiled(|t| t.classes[0].fields = vec![plus(0); count]));
        unwritable(&spoiled(|t| t.methods[0].params = vec![plus(0); count]));
        let many = || vec![new(0, []); count];
        unwritable(&spoiled(|t| t.main = Expr::New(0, many())));
        unwritable(&spoiled(|t| {
            t.main = Expr::Call(1, Box::new(new(1, [])), many())
        }));
    }
}

#[test]
fn refusal_8_nesting_and_length() {
    let deep = |levels| (0..levels).fold(new(0, []), |inner, _| field(0, inner));
    assert!(written(&spoiled(|t| t.main = deep(5)), 49_567).0.is_ok());
    unwritable(&spoiled(|t| t.main = deep(6)));
    unwritable(&spoiled(|t| t.methods[0].right = deep(5_000)));
    // 4 x 4 x 4 values of 3 bytes and what holds them: 1 + 21 x 3 + 64 x 3 =
    // 256 bytes, one too many; with a parameter for one value it is 255.
    let four = |part: &Expr| Expr::New(0, vec![part.clone(); 4]);
    let wide = four(&four(&four(&new(0, []))));
    unwritable(&spoiled(|t| t.main = wide.clone()));
    let mut narrower = param(0);
    for like in [new(0, []), four(&new(0, [])), four(&four(&new(0, [])))] {
        narrower = new(0, [narrower, like.clone(), like.clone(), like]);
    }
    let (result, _) = written(&spoiled(|t| t.main = narrower.clone()), 49_567);
    assert!(result.is_ok());
}

#[test]
fn refusal_8_class_rules() {
    let changes: [fn(&mut Table); 12] = [
        |t| t.classes[0].parent = 1,
        |t| t.classes[0].fields = vec![plus(2)],
        |t| t.classes[0].fields = vec![plus_open(1)],
        |t| t.classes[0].fields = vec![reference::syntax::Type { class: 0, tag: 4 }],
        |t| t.methods[0].owner = 0,
        |t| t.methods[0].owner = 2,
        |t| t.methods[0].first = minus_open(1),
        |t| t.methods[0].second.tag = 4,
        |t| t.methods[0].second.class = 9,
        |t| t.methods[0].params = vec![minus_open(1)],
        |t| t.methods.push(t.methods[0].clone()),
        |t| t.main = new(2, []),
    ];
    for change in changes {
        unwritable(&spoiled(change));
    }
    // An override of other types; 8 comes before 9 in all of these.
    unwritable(&spoiled(|t| {
        t.classes.push(Class {
            parent: 1,
            fields: Vec::new(),
        });
        let first = minus(1);
        let method = MethodFrame {
            owner: 2,
            first,
            ..t.methods[0].clone()
        };
        t.methods.push(method);
    }));
}

#[test]
fn untyped_tables_are_written() {
    // The writer asks for 1 to 5 only.
    let table = spoiled(|t| t.main = call(9, res(), [param(200)]));
    let (result, buffer) = written(&table, 49_567);
    assert_eq!(read(&buffer[..result.unwrap()]), Ok(table));
}
