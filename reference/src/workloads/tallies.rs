//! Whole numbers: loops that count, lists of numbers that are built and
//! compared, and second texts of numbers.

use super::batch::{BASE, row_of};
use super::repeat::{fuel, repeated};
use super::{Call, Ending, Times, Workload};
use crate::batch::MAX_PARTS;
use crate::builder::{
    Program, call, choose, difference, minus, new, number, param, plus, res, sum, this, whole,
};
use crate::calls::Mode;
use crate::generator::batch::parts::text;
use crate::syntax::{Expr, Type};
use crate::values::{Object, Ref};

/// What ends a list, and below it a cell of a number and the rest of a list: one
/// of the two branches' types must fit the other.
const LIST: u8 = 1;
const CELL: u8 = 2;
const HOLDER: u8 = 3;
const PAIR: u8 = 4;

const TALLY: u8 = 1;
const TWICE: u8 = 2;
const LAY: u8 = 3;

const ALL: u8 = 4;

/// A part of a batch: the next one and three numbers.
const TALLIES: u8 = 2;

/// Every row of numbers.
pub fn all() -> Vec<Workload> {
    vec![
        smallest(),
        tally(12, 1),
        tally(12, 5_000),
        twice(12),
        list_laid(15),
        lists_compared(12, 0),
        lists_compared(12, 100),
        parts_row("batch, 32 parts by numbers", 32, 32),
        parts_row("batch, 254 of numbers, by 31", MAX_PARTS, 31),
    ]
}

fn smallest() -> Workload {
    Workload {
        name: "smallest number, checked run".to_string(),
        call: Call::Run(Mode::Checked),
        text: b"0346002A\n".to_vec(),
        second: Vec::new(),
        fuel: 0,
        spends: 0,
        ending: Ending::Number(42),
    }
}

fn classes() -> Program {
    let mut p = Program::start();
    p.class(0, &[]);
    p.class(LIST, &[whole(), plus(LIST)]);
    p.class(0, &[]);
    p.class(0, &[plus(LIST), plus(LIST)]);
    p
}

/// Adds a method of HOLDER that asks parameter 0 whether to go on.
fn add_loop(p: &mut Program, name: u8, result: Type, params: &[Type], on: Expr, end: Expr) {
    let left = choose(param(0), on, end.clone());
    p.method((HOLDER, name), (result, result), params, (left, end));
}

/// Adds a method that does this work, of so many calls, and the ones that do it
/// again and again.
fn repeating(mut p: Program, name: String, work: Expr, calls: usize, objects: usize) -> Workload {
    const TIMES: Times = Times(9, 23);
    let any = minus(0);
    p.method((HOLDER, ALL), (any, any), &[], (work, res()));
    let start = repeated(&mut p, HOLDER, &[], call(ALL, this(), []), TIMES);
    let text = p.text(start(new(HOLDER, []), vec![]));
    Workload::checked(name, text, fuel(TIMES, calls + 1), objects)
}

fn one_less(step: u16) -> Expr {
    difference(param(0), number(step))
}

/// So many steps down to 0, added up, again and again; each sum goes into a cell.
fn tally(steps: usize, step: u16) -> Workload {
    let mut p = classes();
    let on = sum(number(step), call(TALLY, this(), [one_less(step)]));
    add_loop(&mut p, TALLY, whole(), &[whole()], on, number(0));
    let start = number(steps as u16 * step);
    let work = new(CELL, [call(TALLY, this(), [start]), new(LIST, [])]);
    repeating(p, format!("tally of {steps} by {step}"), work, steps + 1, 2)
}

/// Two calls for each of so many levels: nothing but calls and numbers.
fn twice(levels: usize) -> Workload {
    let mut p = classes();
    let half = || call(TWICE, this(), [one_less(1)]);
    add_loop(
        &mut p,
        TWICE,
        whole(),
        &[whole()],
        sum(half(), half()),
        number(1),
    );
    let text = p.text(call(TWICE, new(HOLDER, []), [number(levels as u16)]));
    let spends = (2 << levels) - 1;
    Workload {
        ending: Ending::Number(1 << levels),
        ..Workload::checked(format!("{levels} levels of sums"), text, spends, 0)
    }
}

/// Adds the method that lays a cell a call; parameter 1 is added to each number.
fn add_laying(p: &mut Program) {
    let element = sum(param(0), param(1));
    let rest = call(LAY, this(), [one_less(1), param(1)]);
    let on = new(CELL, [element, rest]);
    add_loop(p, LAY, plus(LIST), &[whole(), whole()], on, new(LIST, []));
}

/// A list of so many numbers, once.
fn list_laid(cells: usize) -> Workload {
    let mut p = classes();
    add_laying(&mut p);
    let laid = [number(cells as u16), number(0)];
    let text = p.text(call(LAY, new(HOLDER, []), laid));
    let name = format!("list of {cells} numbers");
    Workload::checked(name, text, cells + 1, cells + 1)
}

/// Two lists of so many numbers in one object, again and again. With 0 for
/// `more` they are equal; else the second has other numbers throughout.
fn lists_compared(cells: usize, more: u16) -> Workload {
    let mut p = classes();
    add_laying(&mut p);
    let list = |more| call(LAY, this(), [number(cells as u16), number(more)]);
    let work = new(PAIR, [list(0), list(more)]);
    let (what, objects) = match more {
        0 => ("equal", cells + 2),
        _ => ("other", 2 * cells + 2),
    };
    let name = format!("two lists of {cells}, {what}");
    repeating(p, name, work, 2 * (cells + 1), objects)
}

/// A ring of so many parts of one class, equal after a whole period: one number
/// of a part tells them apart.
fn parts_row(name: &str, count: usize, period: usize) -> Workload {
    let part = |place: usize| {
        let next = match place + 1 < count {
            true => place + 1,
            false => count % period,
        };
        let number = |number: usize| Ref::Number(number as u16);
        Object {
            class: TALLIES,
            fields: vec![
                Ref::Object(next),
                number(0x4546),
                number(place % period),
                number(7),
            ],
        }
    };
    let parts: Vec<Object> = (0..count).map(part).collect();
    let mut p = Program::start();
    p.class(0, &[]);
    p.class(BASE, &[plus(BASE), whole(), whole(), whole()]);
    row_of(p, name, text(&parts), Ending::Objects(period))
}
