//! The stack that a call needs, as the header states it: the deepest texts through both engines, the proved one in a
//! thread with no more than that. Of an engine that needs more the thread overflows, and the test ends at once.

use baqolluy::{REPORT_LENGTH, TEXT_LENGTH, WORK_LENGTH};
use reference::builder::{
    Program, call, choose, minus, minus_open, new, number, param, plus, res, sum, this, whole,
};
use reference::calls::{self, Mode};
use reference::generator::random::Random;
use reference::generator::{self, Kind};
use reference::linerun;
use reference::refusals::Refusal;
use reference::syntax::Expr;
use reference::workloads;
use std::thread;

const STACK: usize = 192 * 1024;
const FUEL: u16 = 1_000;

const NODE: u8 = 1;
const COMMON: u8 = 2;
const OTHER: u8 = 3;
const HOLDER: u8 = 4;

const UNKNOWN: u8 = 1;
const SAME: u8 = 2;
/// LAY + i lays the objects from 4 i on, DEEP + i is the i-th call that is open.
const LAY: u8 = 0x10;
const DEEP: u8 = 0x20;

/// What the call gives in a thread of its own with this stack.
fn in_thread<T: Send>(call: impl FnOnce() -> T + Send) -> T {
    thread::scope(|scope| {
        let thread = thread::Builder::new().stack_size(STACK);
        let started = thread.spawn_scoped(scope, call).expect("a thread");
        started.join().expect("a call does not panic")
    })
}

/// Four fields, of which the last leads on, so that each object of a walk has four places on the stack; the undetermined
/// value; a ring of 32 objects, all of one class but one.
fn ring_of_32() -> Program {
    let mut p = Program::start();
    let any = minus(0);
    p.class(0, &[any, any, any, plus(NODE)]);
    p.class(NODE, &[]);
    p.class(NODE, &[]);
    p.class(0, &[]);
    let unknown = || call(UNKNOWN, this(), []);
    p.method((HOLDER, UNKNOWN), (any, any), &[], (unknown(), res()));
    for place in 0..8 {
        let next = call(LAY + (place + 1) % 8, this(), []);
        let left = (0..4).fold(next, |rest, laid| {
            let class = if (place, laid) == (0, 3) {
                OTHER
            } else {
                COMMON
            };
            new(class, [unknown(), unknown(), unknown(), rest])
        });
        let types = (plus(NODE), minus_open(NODE));
        p.method((HOLDER, LAY + place), types, &[], (left, res()));
    }
    p
}

/// What a body has around its innermost expression.
#[derive(Clone, Copy)]
enum Around {
    /// New objects that go back around the ring, so that they are objects of it.
    Objects,
    /// Calls whose argument it is.
    Calls,
}

/// So many open calls, each nested 6 deep: the next call below four new objects or calls, in the last one the innermost
/// expression.
fn deep(calls: u8, around: Around, innermost: Expr) -> Vec<u8> {
    let mut p = ring_of_32();
    let node = plus(NODE);
    p.method((HOLDER, SAME), (node, node), &[node], (param(0), param(0)));
    let mut made = 1;
    let mut wrap = |inner, receiver: fn() -> Expr, unknown: fn() -> Expr| {
        made += 1;
        let class = if made % 32 == 0 { OTHER } else { COMMON };
        match around {
            Around::Objects => new(class, [unknown(), unknown(), unknown(), inner]),
            Around::Calls => call(SAME, receiver(), [inner]),
        }
    };
    let mut inner = innermost;
    for place in (1..=calls).rev() {
        let left = (0..4).fold(inner, |inner, _| wrap(inner, this, || param(1)));
        let params = [node, minus(0)];
        p.method(
            (HOLDER, DEEP + place),
            (node, node),
            &params,
            (left, param(0)),
        );
        inner = call(DEEP + place, this(), [param(0), param(1)]);
    }
    let holder = || new(HOLDER, []);
    let unknown = || call(UNKNOWN, new(HOLDER, []), []);
    let start = call(DEEP + 1, holder(), [call(LAY, holder(), []), unknown()]);
    p.text((0..3).fold(start, |inner, _| wrap(inner, holder, unknown)))
}

/// A new object over the ring that is none of it: its parts are laid side by side, coloured and walked.
fn over_the_ring() -> Expr {
    new(COMMON, [param(1), param(1), this(), param(0)])
}

/// The object of the ring before the one given.
fn of_the_ring() -> Expr {
    new(COMMON, [param(1), param(1), param(1), param(0)])
}

/// Units that a text of `deep` spends: two for each undetermined value, one for each four objects of the ring and one
/// for its end, one for each call that is open.
fn spent(calls: u16, around: Around) -> u16 {
    let in_main = match around {
        Around::Objects => 3 * 3 + 1,
        Around::Calls => 1,
    };
    2 * (3 * 32 + in_main) + 9 + calls
}

/// Both runs, as the reference engine's, end in this report with these units spent.
fn assert_ends(text: &[u8], report_start: &str, lines: usize, units: u16) {
    for mode in [Mode::Checked, Mode::Trial] {
        let run = match mode {
            Mode::Checked => baqolluy::run,
            Mode::Trial => baqolluy::trial,
        };
        let mut report = vec![0xA5; REPORT_LENGTH];
        let mut work = vec![0xA5; WORK_LENGTH];
        let (lent, worked) = (&mut report[..], &mut work[..]);
        let answer = in_thread(|| run(text, b"", baqolluy::open(FUEL), lent, worked));
        let mut other_report = vec![0xA5; REPORT_LENGTH];
        let mut other_work = vec![0xA5; WORK_LENGTH];
        let session = calls::open(FUEL);
        let expected = calls::run(mode, text, session, &mut other_report, &mut other_work);
        assert_eq!(expected.refusal.map_or(0, Refusal::number), answer.refusal);
        assert_eq!(expected.session.fuel, answer.session.fuel);
        assert_eq!(expected.length, usize::from(answer.length));
        assert!(report == other_report && work == other_work);
        assert_eq!(answer.refusal, 0);
        assert_eq!(answer.session.fuel, FUEL - units);
        let shown = String::from_utf8_lossy(&report[..usize::from(answer.length)]);
        assert!(shown.starts_with(report_start), "{shown}");
        assert_eq!(shown.lines().count(), lines);
    }
    assert_shown(text);
}

/// The same as `linerun` shows it.
fn assert_shown(input: &[u8]) {
    let (mut report, mut work) = (vec![0xA5; REPORT_LENGTH], vec![0xA5; WORK_LENGTH]);
    let (lent, worked) = (&mut report[..], &mut work[..]);
    let shown = in_thread(|| baqolluy::show(input, lent, worked));
    let verdict = &shown.verdict[..usize::from(shown.verdict_length)];
    let given = [verdict, &report[..usize::from(shown.length)]].concat();
    let (expected, _) = linerun::output(Mode::Checked, FUEL, input);
    assert_eq!(given, expected);
}

/// Check, reading and writing of a text.
fn assert_read_and_written(text: &[u8]) {
    let verdict = in_thread(|| baqolluy::check(text));
    let main = calls::check(text).expect("a text with types");
    let given = (verdict.refusal, verdict.class, verdict.tag);
    assert_eq!(given, (0, main.class, main.tag));
    let reading = in_thread(|| Box::new(baqolluy::read(text)));
    assert_eq!(reading.refusal, 0);
    let mut buffer = vec![0; TEXT_LENGTH];
    let (table, lent) = (&reading.table, &mut buffer[..]);
    let written = in_thread(|| baqolluy::write(table, lent));
    assert_eq!(written.refusal, 0);
    assert!(&buffer[..usize::from(written.length)] == text);
}

#[test]
fn sixteen_open_calls_and_a_walk() {
    for around in [Around::Objects, Around::Calls] {
        let text = deep(16, around, over_the_ring());
        assert_ends(&text, "0704", 1, spent(16, around));
        assert_read_and_written(&text);
    }
}

#[test]
fn sixteen_open_calls_and_a_value() {
    let text = deep(16, Around::Objects, of_the_ring());
    assert_ends(&text, "0500", 32, spent(16, Around::Objects));
}

/// Sums and choices around each call that is open, 6 deep: so many of them wait for an operand at one time.
#[test]
fn sixteen_open_calls_inside_sums() {
    let mut p = Program::start();
    let holder = p.class(0, &[]);
    let around = |inner: Expr| {
        let added = (0..3).fold(inner, |inner, _| sum(number(1), inner));
        choose(added, number(3), number(4))
    };
    let types = (whole(), whole());
    for place in (1..=16).rev() {
        let inner = match place {
            16 => number(1),
            _ => call(DEEP + place + 1, this(), []),
        };
        p.method(
            (holder, DEEP + place),
            types,
            &[],
            (around(inner), number(0)),
        );
    }
    let text = p.text(around(call(DEEP + 1, new(holder, []), [])));
    assert_ends(&text, "090003", 1, 16);
    assert_read_and_written(&text);
}

/// That 16 calls are open above: one more is too deep.
#[test]
fn one_call_more() {
    for around in [Around::Objects, Around::Calls] {
        let text = deep(17, around, over_the_ring());
        assert_ends(&text, "0703", 1, spent(17, around));
    }
}

/// A method that is looked for through as many classes as there can be, by a run and by itself.
#[test]
fn the_longest_search() {
    let mut p = Program::start();
    for above in 0..32 {
        p.class(above, &[]);
    }
    let types = (plus(1), plus(1));
    p.method((1, SAME), types, &[], (this(), this()));
    let text = p.text(call(SAME, new(32, []), []));
    assert_ends(&text, "05002000", 1, 1);
    assert_read_and_written(&text);
    let reading = Box::new(baqolluy::read(&text));
    let found = in_thread(|| baqolluy::find(&reading.table, 32, SAME));
    assert_eq!(found.map(|found| found.owner), Some(1));
}

#[test]
fn full_texts() {
    for number in 0..10 {
        let text = generator::text(Kind::Full, &mut Random::for_case(16, number));
        assert_read_and_written(&text);
    }
}

/// Second texts of as many parts as there can be.
#[test]
fn full_second_texts() {
    for row in workloads::batch() {
        let (text, second) = (&row.text[..], &row.second[..]);
        let (mut report, mut work) = (vec![0xA5; REPORT_LENGTH], vec![0xA5; WORK_LENGTH]);
        let (lent, worked) = (&mut report[..], &mut work[..]);
        let session = baqolluy::open(row.fuel);
        let answer = in_thread(|| baqolluy::run(text, second, session, lent, worked));
        let mut other_report = vec![0xA5; REPORT_LENGTH];
        let mut other_work = vec![0xA5; WORK_LENGTH];
        let (lent, worked) = (&mut other_report[..], &mut other_work[..]);
        let session = calls::open(row.fuel);
        let expected = calls::run_batch(Mode::Checked, text, second, session, lent, worked);
        assert_eq!(expected.refusal.map_or(0, Refusal::number), answer.refusal);
        assert_eq!(expected.length, usize::from(answer.length));
        assert!(report == other_report && work == other_work, "{}", row.name);
        assert_shown(&[text, second].concat());
    }
}
