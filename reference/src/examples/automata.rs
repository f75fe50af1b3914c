//! Appendix 2.1 of 002: whether the language of a right linear grammar is
//! included in that of a finite automaton.

use super::booleans::{AND, BOOL, EQ, TRUE, add_and, add_eq, no, with_booleans, yes};
use super::methods::{closed, maker, same};
use crate::builder::{Program, call, field, new, param, plus, this};
use crate::syntax::Expr;

const CHAR: u8 = 4;
pub const A: u8 = 5;
pub const B: u8 = 6;
/// 002's `null` is NoState, beside State below MaybeState.
const MAYBE: u8 = 7;
const NO_STATE: u8 = 8;
pub const STATE: u8 = 9;
const ADJ: u8 = 10;
const E_ADJ: u8 = 11;
const NE_ADJ: u8 = 12;
pub const GRAMMAR: u8 = 13;
pub const EMPTY: u8 = 14;
pub const CONCAT: u8 = 15;
pub const UNION: u8 = 16;
pub const FACT: u8 = 17;

pub const INCLUDED: u8 = 1;
const GET_STATE: u8 = 2;
const PICK: u8 = 0x13;
const GO_ON: u8 = 0x14;
/// Makes the automaton of figure 9, a*b.
pub const AUTOMATON: u8 = 1;
/// Makes the grammar A ::= b | aA.
pub const LANGUAGE: u8 = 2;

fn classes() -> Program {
    let mut p = with_booleans();
    p.class(0, &[]);
    p.class(CHAR, &[]);
    p.class(CHAR, &[]);
    p.class(0, &[]);
    p.class(MAYBE, &[]);
    p.class(MAYBE, &[plus(BOOL), plus(ADJ)]);
    p.class(0, &[]);
    p.class(ADJ, &[]);
    p.class(ADJ, &[plus(CHAR), plus(STATE), plus(ADJ)]);
    p.class(0, &[]);
    p.class(GRAMMAR, &[]);
    p.class(GRAMMAR, &[plus(CHAR), plus(GRAMMAR)]);
    p.class(GRAMMAR, &[plus(GRAMMAR), plus(GRAMMAR)]);
    p.class(0, &[]);
    p
}

/// The search of an adjacency list.
fn add_get_state(p: &mut Program) {
    let two = [plus(MAYBE), plus(MAYBE)];
    same(p, (BOOL, PICK), MAYBE, &two, param(1));
    same(p, (TRUE, PICK), MAYBE, &two, param(0));
    let none = new(NO_STATE, []);
    same(p, (ADJ, GET_STATE), MAYBE, &[plus(CHAR)], none);
    let equal = call(EQ, field(0, this()), [param(0)]);
    let rest = call(GET_STATE, field(2, this()), [param(0)]);
    let picked = call(PICK, equal, [field(1, this()), rest]);
    same(p, (NE_ADJ, GET_STATE), MAYBE, &[plus(CHAR)], picked);
}

/// included, `with true` throughout.
fn add_included(p: &mut Program) {
    let state = [plus(STATE)];
    same(p, (GRAMMAR, INCLUDED), BOOL, &state, no());
    same(p, (EMPTY, INCLUDED), BOOL, &state, field(0, param(0)));
    let target = call(GET_STATE, field(1, param(0)), [field(0, this())]);
    let left = call(GO_ON, target, [field(1, this())]);
    p.method((CONCAT, INCLUDED), closed(BOOL), &state, (left, yes()));
    let part = |place| call(INCLUDED, field(place, this()), [param(0)]);
    let left = call(AND, part(0), [part(1)]);
    p.method((UNION, INCLUDED), closed(BOOL), &state, (left, yes()));
    let grammar = [plus(GRAMMAR)];
    same(p, (MAYBE, GO_ON), BOOL, &grammar, no());
    let on = call(INCLUDED, param(0), [this()]);
    same(p, (STATE, GO_ON), BOOL, &grammar, on);
}

fn add_automaton(p: &mut Program) {
    let e_adj = || new(E_ADJ, []);
    let end = new(STATE, [yes(), e_adj()]);
    let by_b = new(NE_ADJ, [new(B, []), end, e_adj()]);
    let again = call(AUTOMATON, this(), []);
    let by_a = new(NE_ADJ, [new(A, []), again, by_b]);
    maker(p, (FACT, AUTOMATON), STATE, new(STATE, [no(), by_a]));
}

pub fn concat(symbol: u8, rest: Expr) -> Expr {
    new(CONCAT, [new(symbol, []), rest])
}

/// included, an automaton, and a grammar of the same language.
pub fn with_inclusion() -> Program {
    let mut p = classes();
    add_and(&mut p);
    add_eq(&mut p, CHAR, A..=B);
    add_get_state(&mut p);
    add_included(&mut p);
    add_automaton(&mut p);
    let again = call(LANGUAGE, this(), []);
    let parts = [concat(B, new(EMPTY, [])), concat(A, again)];
    maker(&mut p, (FACT, LANGUAGE), GRAMMAR, new(UNION, parts));
    p
}

pub fn made(name: u8) -> Expr {
    call(name, new(FACT, []), [])
}
