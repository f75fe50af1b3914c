//! Section 2 of 002: cyclic lists, allPos, member, noRep, isCyc, remPos.

use super::booleans::{NO, YES};
use super::common::{checked, lines, trial};
use reference::builder::*;
use reference::examples::booleans::{BOOL, EQ, TRUE, add_eq, no, with_booleans, yes};
use reference::examples::methods::{closed, same};
use reference::syntax::Expr;

const INT: u8 = 4;
const ONE: u8 = 5;
const TWO: u8 = 6;
const MINUS_ONE: u8 = 7;
const LIST: u8 = 8;
const E_LIST: u8 = 9;
const NE_LIST: u8 = 10;
const FACT: u8 = 11;

const INF_OCC: u8 = 1;
const INF_ALT_OCC: u8 = 2;
const ALL_POS: u8 = 3;
const MEMBER: u8 = 4;
const NO_REP: u8 = 5;
const IS_CYC: u8 = 6;
const REM_POS: u8 = 7;
const WRONG_REM_POS: u8 = 8;
// Helpers: the decisions of an element or a boolean about a list.
const ALL_POS_OF: u8 = 0x31;
const MEMBER_ELSE: u8 = 0x32;
const CONS_NEW: u8 = 0x33;
const CONS_UNLESS: u8 = 0x34;
const REM_POS_OF: u8 = 0x35;
const EMPTY_OR: u8 = 0x36;
const WRONG_OF: u8 = 0x37;

/// NEList has fields el (0) and nx (1).
fn el(list: Expr) -> Expr {
    field(0, list)
}

fn nx(list: Expr) -> Expr {
    field(1, list)
}

fn empty() -> Expr {
    new(E_LIST, [])
}

/// The classes, the factory, and integers that can be compared.
fn base() -> Program {
    let mut p = with_booleans();
    p.class(0, &[]);
    for _ in [ONE, TWO, MINUS_ONE] {
        p.class(INT, &[]);
    }
    p.class(0, &[]);
    p.class(LIST, &[]);
    p.class(LIST, &[plus(INT), plus(LIST)]);
    p.class(0, &[]);
    let ring = (plus(NE_LIST), minus_open(NE_LIST));
    let again = call(INF_OCC, this(), [param(0)]);
    let body = (new(NE_LIST, [param(0), again]), res());
    p.method((FACT, INF_OCC), ring, &[plus(INT)], body);
    let again = call(INF_ALT_OCC, this(), [param(1), param(0)]);
    let body = (new(NE_LIST, [param(0), again]), res());
    p.method((FACT, INF_ALT_OCC), ring, &[plus(INT), plus(INT)], body);
    add_eq(&mut p, INT, ONE..=MINUS_ONE);
    p
}

fn with_all_pos(mut p: Program) -> Program {
    // if (this.el <= 0) false else this.nx.allPos() with true
    same(&mut p, (LIST, ALL_POS), BOOL, &[], yes());
    let left = call(ALL_POS_OF, el(this()), [this()]);
    p.method((NE_LIST, ALL_POS), closed(BOOL), &[], (left, yes()));
    let rest = call(ALL_POS, nx(param(0)), []);
    same(&mut p, (INT, ALL_POS_OF), BOOL, &[plus(NE_LIST)], rest);
    same(
        &mut p,
        (MINUS_ONE, ALL_POS_OF),
        BOOL,
        &[plus(NE_LIST)],
        no(),
    );
    p
}

fn with_member(mut p: Program) -> Program {
    // if (this.el == i) true else this.nx.member(i) with false
    same(&mut p, (LIST, MEMBER), BOOL, &[plus(INT)], no());
    let equal = call(EQ, el(this()), [param(0)]);
    let left = call(MEMBER_ELSE, equal, [this(), param(0)]);
    p.method((NE_LIST, MEMBER), closed(BOOL), &[plus(INT)], (left, no()));
    let params = [plus(NE_LIST), plus(INT)];
    let rest = call(MEMBER, nx(param(0)), [param(1)]);
    same(&mut p, (BOOL, MEMBER_ELSE), BOOL, &params, rest);
    same(&mut p, (TRUE, MEMBER_ELSE), BOOL, &params, yes());
    p
}

fn with_is_cyc(mut p: Program) -> Program {
    same(&mut p, (LIST, IS_CYC), BOOL, &[], no());
    let left = call(IS_CYC, nx(this()), []);
    p.method((NE_LIST, IS_CYC), closed(BOOL), &[], (left, yes()));
    p
}

/// noRep, with `new EList()` on the right as 002 has it.
fn with_no_rep(mut p: Program) -> Program {
    same(&mut p, (LIST, NO_REP), LIST, &[], empty());
    let rest = call(NO_REP, nx(this()), []);
    let left = call(CONS_UNLESS, rest, [el(this())]);
    p.method((NE_LIST, NO_REP), closed(LIST), &[], (left, empty()));
    with_cons_unless(p)
}

/// l.consUnless(i): l if i is a member of it, otherwise i before l.
fn with_cons_unless(mut p: Program) -> Program {
    let member = call(MEMBER, this(), [param(0)]);
    let decided = call(CONS_NEW, member, [param(0), this()]);
    same(&mut p, (LIST, CONS_UNLESS), LIST, &[plus(INT)], decided);
    let params = [plus(INT), plus(LIST)];
    let longer = new(NE_LIST, [param(0), param(1)]);
    same(&mut p, (BOOL, CONS_NEW), LIST, &params, longer);
    same(&mut p, (TRUE, CONS_NEW), LIST, &params, param(1));
    p
}

fn inf_occ(int: u8) -> Expr {
    call(INF_OCC, new(FACT, []), [new(int, [])])
}

fn alternating() -> Expr {
    call(
        INF_ALT_OCC,
        new(FACT, []),
        [new(ONE, []), new(MINUS_ONE, [])],
    )
}

fn cons(int: u8, list: Expr) -> Expr {
    new(NE_LIST, [new(int, []), list])
}

fn answer(p: &Program, main: Expr) -> String {
    checked(1000, &p.text(main)).0
}

fn boolean(report: &str) -> String {
    lines(&["08000100", report])
}

#[test]
fn inf_occ_is_one_cell() {
    // L = new NEList(1, L): a cell whose nx is itself, and its One. Two calls.
    let report = lines(&["08000A00", "05000A020100", "05010500"]);
    assert_eq!(checked(1000, &base().text(inf_occ(ONE))), (report, 998));
}

#[test]
fn inf_alt_occ_is_two_cells() {
    // L = new NEList(1, new NEList(-1, L)): cell 00, One 01, then through nx
    // cell 02 with MinusOne 03 and back to 00. Calls (1,-1), (-1,1), (1,-1).
    let report = [
        "08000A00",
        "05000A020102",
        "05010500",
        "05020A020300",
        "05030700",
    ];
    assert_eq!(
        checked(1000, &base().text(alternating())),
        (lines(&report), 997)
    );
}

#[test]
fn inf_alt_occ_of_equal_values_is_inf_occ() {
    // The second call already has the arguments of the first.
    let main = call(INF_ALT_OCC, new(FACT, []), [new(TWO, []), new(TWO, [])]);
    let report = lines(&["08000A00", "05000A020100", "05010600"]);
    assert_eq!(checked(1000, &base().text(main)), (report, 998));
}

#[test]
fn all_pos() {
    // 002: true for endless 1s, false for 1, -1, ...; finite lists work too.
    let p = with_all_pos(base());
    let all_pos = |list| answer(&p, call(ALL_POS, list, []));
    assert_eq!(all_pos(inf_occ(ONE)), boolean(YES));
    assert_eq!(all_pos(alternating()), boolean(NO));
    assert_eq!(all_pos(cons(MINUS_ONE, inf_occ(ONE))), boolean(NO));
    assert_eq!(all_pos(cons(TWO, cons(ONE, empty()))), boolean(YES));
}

#[test]
fn member() {
    // Found before the ring is closed, or false when a call is met again.
    let p = with_member(base());
    let member = |list, int| answer(&p, call(MEMBER, list, [new(int, [])]));
    assert_eq!(member(alternating(), ONE), boolean(YES));
    assert_eq!(member(alternating(), MINUS_ONE), boolean(YES));
    assert_eq!(member(alternating(), TWO), boolean(NO));
    assert_eq!(member(cons(TWO, inf_occ(ONE)), TWO), boolean(YES));
    assert_eq!(member(cons(ONE, empty()), TWO), boolean(NO));
}

#[test]
fn is_cyc() {
    let p = with_is_cyc(base());
    let is_cyc = |list| answer(&p, call(IS_CYC, list, []));
    assert_eq!(is_cyc(alternating()), boolean(YES));
    assert_eq!(is_cyc(cons(TWO, inf_occ(ONE))), boolean(YES));
    assert_eq!(is_cyc(cons(ONE, cons(ONE, empty()))), boolean(NO));
}

#[test]
fn no_rep() {
    let p = with_no_rep(with_member(base()));
    let no_rep = |list| answer(&p, call(NO_REP, list, []));
    // Endless 1s: the call met again gives [], in which 1 is not: [1].
    let once = lines(&["08000800", "05000A020102", "05010500", "05020900"]);
    assert_eq!(no_rep(inf_occ(ONE)), once);
    assert_eq!(no_rep(cons(ONE, cons(ONE, empty()))), once);
    // 1, -1, 1, ...: [] at the second 1, then [-1], then [1, -1].
    let both = [
        "05000A020102",
        "05010500",
        "05020A020304",
        "05030700",
        "05040900",
    ];
    let both = format!("{}{}", lines(&["08000800"]), lines(&both));
    assert_eq!(no_rep(alternating()), both);
}

#[test]
fn no_rep_without_its_with_fails() {
    // 002: with `res` on the right, l.member is called on the mark. The mark
    // is no receiver, for the types nor in the run.
    let mut p = with_member(base());
    same(&mut p, (LIST, NO_REP), LIST, &[], empty());
    let rest = call(NO_REP, nx(this()), []);
    let body = (call(CONS_UNLESS, rest, [el(this())]), res());
    p.method((NE_LIST, NO_REP), closed(LIST), &[], body);
    let text = with_cons_unless(p).text(call(NO_REP, inf_occ(ONE), []));
    assert_eq!(checked(1000, &text), (lines(&["0806"]), 1000));
    assert_eq!(trial(1000, &text).0, lines(&["0701"]));
}

#[test]
fn wrong_rem_pos() {
    // 002: on 1, -1, 1, ... it gives [-1] and no ring. All of it is closed,
    // so it has a type: el decides, -1 goes before the rest, 1 is dropped.
    let mut p = base();
    same(&mut p, (LIST, WRONG_REM_POS), LIST, &[], empty());
    let left = call(WRONG_OF, el(this()), [this()]);
    p.method((NE_LIST, WRONG_REM_POS), closed(LIST), &[], (left, empty()));
    let rest = || call(WRONG_REM_POS, nx(param(0)), []);
    same(&mut p, (INT, WRONG_OF), LIST, &[plus(NE_LIST)], rest());
    let kept = new(NE_LIST, [this(), rest()]);
    same(&mut p, (MINUS_ONE, WRONG_OF), LIST, &[plus(NE_LIST)], kept);
    let report = ["08000800", "05000A020102", "05010700", "05020900"];
    assert_eq!(
        answer(&p, call(WRONG_REM_POS, alternating(), [])),
        lines(&report)
    );
}

/// remPos: the right side is `if (this.allPos()) new EList() else res`. Its
/// results are minus ones, since with `res` the left side may be unguarded.
fn with_rem_pos(mut p: Program) -> Program {
    let results = (minus(LIST), minus(LIST));
    p.method((LIST, REM_POS), results, &[], (empty(), empty()));
    let left = call(REM_POS_OF, el(this()), [this()]);
    let right = call(EMPTY_OR, call(ALL_POS, this(), []), [res()]);
    p.method((NE_LIST, REM_POS), results, &[], (left, right));
    let rest = || call(REM_POS, nx(param(0)), []);
    let dropped = (rest(), rest());
    p.method((INT, REM_POS_OF), results, &[plus(NE_LIST)], dropped);
    let kept = || new(NE_LIST, [this(), rest()]);
    let params = [plus(NE_LIST)];
    p.method((MINUS_ONE, REM_POS_OF), results, &params, (kept(), kept()));
    let params = [minus(LIST)];
    p.method((BOOL, EMPTY_OR), results, &params, (param(0), param(0)));
    p.method((TRUE, EMPTY_OR), results, &params, (empty(), empty()));
    p
}

#[test]
fn rem_pos_has_no_type_and_runs_on_trial() {
    let p = with_rem_pos(with_all_pos(base()));
    let rem_pos = |list, report: &[&str]| {
        let text = p.text(call(REM_POS, list, []));
        // The minus rest would stand in NEList's plus field; the encoded `if`
        // would moreover take res, which is open, as an argument.
        assert_eq!(checked(1000, &text), (lines(&["0806"]), 1000));
        assert_eq!(trial(1000, &text).0, lines(report));
    };
    // 1, -1, 1, ...: L = new NEList(-1, L).
    rem_pos(alternating(), &["05000A020100", "05010700"]);
    // Nothing but 1s: the empty list.
    rem_pos(inf_occ(ONE), &["05000900"]);
    // -1, then endless 1s (002 prints -1 twice, plainly for -1 and 1): the
    // list from its second cell on is all positive, so [-1].
    let report = ["05000A020102", "05010700", "05020900"];
    rem_pos(cons(MINUS_ONE, inf_occ(ONE)), &report);
    // Endless -1s stay.
    rem_pos(inf_occ(MINUS_ONE), &["05000A020100", "05010700"]);
}
