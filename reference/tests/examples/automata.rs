//! Appendix 2.1 of 002: whether the language of a right linear grammar is
//! included in that of a finite automaton. The classes in the reports are those
//! of `reference::examples::automata`.

use super::booleans::{NO, YES};
use super::common::{checked, lines};
use reference::builder::*;
use reference::examples::automata::*;
use reference::examples::booleans::{AND, BOOL, OR, add_or, no, yes};
use reference::examples::methods::{closed, maker, same};
use reference::syntax::Expr;

const EMPTY_SET: u8 = 3;
const INCLUDED_OR_EMPTY: u8 = 0x15;

/// emptySet, `with true` throughout.
fn with_empty_set(mut p: Program) -> Program {
    same(&mut p, (GRAMMAR, EMPTY_SET), BOOL, &[], no());
    let left = call(EMPTY_SET, field(1, this()), []);
    p.method((CONCAT, EMPTY_SET), closed(BOOL), &[], (left, yes()));
    let part = |place| call(EMPTY_SET, field(place, this()), []);
    let left = call(AND, part(0), [part(1)]);
    p.method((UNION, EMPTY_SET), closed(BOOL), &[], (left, yes()));
    add_or(&mut p);
    let empty = call(EMPTY_SET, this(), []);
    let either = call(OR, empty, [call(INCLUDED, this(), [param(0)])]);
    let state = [plus(STATE)];
    same(&mut p, (GRAMMAR, INCLUDED_OR_EMPTY), BOOL, &state, either);
    p
}

/// With factory methods for more grammars: 3 is A ::= a | aA; 4 is A ::= bA;
/// 5 is A ::= ab | bA.
fn with_factory() -> Program {
    let mut p = with_empty_set(with_inclusion());
    let empty = || new(EMPTY, []);
    let mut grammar = |name, left| maker(&mut p, (FACT, name), GRAMMAR, left);
    let again = |name| call(name, this(), []);
    let three = [concat(A, empty()), concat(A, again(3))];
    grammar(3, new(UNION, three));
    grammar(4, concat(B, again(4)));
    let five = [concat(A, concat(B, empty())), concat(B, again(5))];
    grammar(5, new(UNION, five));
    p
}

fn answer(main: Expr) -> String {
    checked(1000, &with_factory().text(main)).0
}

/// Whether the language of this grammar is included in the automaton's.
fn included(grammar: u8) -> String {
    answer(call(INCLUDED, made(grammar), [made(AUTOMATON)]))
}

fn boolean(report: &str) -> String {
    lines(&["08000100", report])
}

#[test]
fn the_automaton_of_figure_9() {
    // Root first: State 00 (not final 01, list 02); the list: 'a' 03, back to
    // 00, rest 04; the rest: 'b' 05, State 06 (final 07, empty list 08), 08.
    let report = [
        "08000900",
        "050009020102",
        "05010300",
        "05020C03030004",
        "05030500",
        "05040C03050608",
        "05050600",
        "050609020708",
        "05070200",
        "05080B00",
    ];
    assert_eq!(answer(made(AUTOMATON)), lines(&report));
}

#[test]
fn the_grammar_of_the_same_language_is_included() {
    // b leads to the final state, where the empty string is accepted; a leads
    // back to the start, where the call is met again: true.
    assert_eq!(included(LANGUAGE), boolean(YES));
}

#[test]
fn other_grammars_are_not() {
    // a alone ends in a state that is not final; b twice has no way to go.
    assert_eq!(included(3), boolean(NO));
    assert_eq!(included(5), boolean(NO));
}

#[test]
fn a_grammar_of_the_empty_set() {
    // A ::= bA generates nothing. 002: included fails, as there is no second
    // b to follow, and emptySet puts it right.
    assert_eq!(included(4), boolean(NO));
    assert_eq!(answer(call(EMPTY_SET, made(4), [])), boolean(YES));
    assert_eq!(answer(call(EMPTY_SET, made(LANGUAGE), [])), boolean(NO));
    let either = |grammar| answer(call(INCLUDED_OR_EMPTY, grammar, [made(AUTOMATON)]));
    assert_eq!(either(made(4)), boolean(YES));
    assert_eq!(either(made(LANGUAGE)), boolean(YES));
    assert_eq!(either(made(3)), boolean(NO));
}
