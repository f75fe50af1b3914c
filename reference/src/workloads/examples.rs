//! Examples of source 002, worked again and again: sums of repeating binary
//! fractions, automaton inclusion, connectivity of a graph.

use super::repeat::{fuel, repeated};
use super::{ONCE, Times, Workload};
use crate::builder::{Program, call, minus, new, param, plus, this};
use crate::examples::{automata, fractions, graphs};

pub fn all() -> Vec<Workload> {
    vec![
        sum(&[0, 1], &[0, 1, 1], ONCE),
        sum(&[0, 1], &[0, 1, 1], Times(1, 23)),
        sum(&[1], &[0, 0, 1, 0, 1, 1], Times(1, 23)),
        inclusion(ONCE),
        inclusion(Times(9, 23)),
        connectivity(ONCE),
        connectivity(Times(9, 23)),
    ]
}

fn named(name: &str, times: Times) -> String {
    let once = if times == ONCE { ", once" } else { "" };
    format!("{name}{once}")
}

/// Adds methods for the cells of a binary fraction from `name` on.
fn cells(p: &mut Program, name: u8, digits: &[u8]) {
    for (place, digit) in (0u8..).zip(digits) {
        let after = name + (place + 1) % digits.len() as u8;
        fractions::add_cell(p, name + place, fractions::ZERO + digit, after);
    }
}

/// The sum of two fractions whose periods are coprime. The ones used here
/// have a sum with as many cells as the product of the periods.
fn sum(one: &[u8], two: &[u8], times: Times) -> Workload {
    use fractions::{ADD, FACT, REP, made};
    const BOTH: u8 = 1;
    // The cells of the two fractions.
    const FIRST: u8 = 0x10;
    const SECOND: u8 = 0x30;
    let mut p = fractions::with_digits(2);
    fractions::add_binary_digits(&mut p);
    fractions::add_sums(&mut p);
    cells(&mut p, FIRST, one);
    cells(&mut p, SECOND, two);
    let reps = [plus(REP), plus(REP)];
    let any = (minus(0), minus(0));
    let left = call(ADD, param(0), [param(1)]);
    p.method((FACT, BOTH), any, &reps, (left, this()));
    let work = call(BOTH, this(), [param(0), param(1)]);
    let start = repeated(&mut p, FACT, &reps, work, times);
    let text = p.text(start(new(FACT, []), vec![made(FIRST), made(SECOND)]));
    let made = one.len() + 1 + two.len() + 1;
    let spends = made + fuel(times, 1 + calls_to_add(one, two));
    let name = format!("sum, periods {} and {}", one.len(), two.len());
    let objects = one.len() * two.len() + 2;
    Workload::checked(named(&name, times), text, spends, objects)
}

/// A sum goes through all pairs of places; at each the carry goes through
/// them all again: its own call, sumCarry, and `and` or `or`, at each pair.
fn calls_to_add(one: &[u8], two: &[u8]) -> usize {
    let period = one.len() * two.len();
    let carry = 3 * period + 1;
    let at_place = |place: usize| {
        let (a, b) = (one[place % one.len()], two[place % two.len()]);
        // add, sum, xor, and a complement for each 1.
        1 + carry + 2 + usize::from(a) + usize::from(b)
    };
    (0..period).map(at_place).sum::<usize>() + 1
}

/// The grammar's language is the automaton's, so that the answer is yes.
fn inclusion(times: Times) -> Workload {
    use automata::{AUTOMATON, FACT, GRAMMAR, INCLUDED, LANGUAGE, STATE, made};
    let mut p = automata::with_inclusion();
    let work = call(INCLUDED, param(0), [param(1)]);
    let params = [plus(GRAMMAR), plus(STATE)];
    let start = repeated(&mut p, FACT, &params, work, times);
    let arguments = vec![made(LANGUAGE), made(AUTOMATON)];
    let text = p.text(start(new(FACT, []), arguments));
    // The union; its two parts: each itself, getState, goOn, and a grammar
    // again; `and`. getState asks both pairs (eq, is, getState, pick) and the
    // empty list.
    let get_state = 4 + 4 + 1;
    let spends = 4 + fuel(times, 1 + 2 * (1 + get_state + 1 + 1) + 1);
    Workload::checked(named("inclusion", times), text, spends, 1)
}

/// Five vertices in a ring, each leading to the next, and each to itself too.
/// Asks for an identity that no vertex has: the whole graph is gone through.
fn connectivity(times: Times) -> Workload {
    use graphs::{CONNECTED, Graph, ID, identity};
    let mut graph = Graph::new(6, &[&[2, 1], &[3, 2], &[4, 3], &[5, 4], &[1, 5]]);
    let work = call(CONNECTED, param(0), [param(1)]);
    let params = [plus(graph.vertex), plus(ID)];
    let start = repeated(&mut graph.program, graph.fact, &params, work, times);
    let arguments = vec![graph.made(1), identity(6)];
    let text = graph.program.text(start(new(graph.fact, []), arguments));
    // Making: each vertex, the one after the last met again, each by itself.
    let made = 5 + 1 + 5;
    // At each vertex: its own call, eq, is, or, two lists and the empty one,
    // an `or` for each list, itself met again; then the first vertex.
    let spends = made + fuel(times, 5 * 10 + 1);
    Workload::checked(named("connectivity", times), text, spends, 1)
}
