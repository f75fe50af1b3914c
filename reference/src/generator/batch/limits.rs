//! Second texts of 252 to 255 lines with 1, 31, 32 or 33 distinct objects, or
//! about as many: rings, chains and trees, as they are or cut at random.

use super::super::numbers;
use super::super::random::Random;
use super::Batch;
use super::cuts::{add_unreached, permuted, split};
use super::parts::text;
use crate::batch::MAX_PARTS;
use crate::builder::{Program, field, minus, new, param, plus, whole};
use crate::syntax::{NUMBER, Table};
use crate::values::{MAX_OBJECTS, Object, Ref};
use crate::writing;

const BASE: u8 = 1;
const A: u8 = 2;
const B: u8 = 3;
const END: u8 = 4;
const FORK: u8 = 5;
const TALLY: u8 = 6;

/// Two texts, how many lines the second has, and how many distinct objects.
pub struct Sized {
    pub batch: Batch,
    pub lines: usize,
    pub objects: usize,
}

pub fn draw(random: &mut Random) -> Sized {
    let objects = match random.below(8) {
        0 => random.between(1, 6),
        1 => random.between(7, 30),
        2 => MAX_OBJECTS - 1,
        3..6 => MAX_OBJECTS,
        _ => MAX_OBJECTS + 1,
    };
    let lines = random.between(MAX_PARTS - 2, MAX_PARTS + 1);
    let parts = match random.below(5) {
        0 => ring(objects),
        1 => chain(random, objects),
        2 => tallies(random, objects),
        3 => counted(objects),
        _ => trees(random, objects),
    };
    let table = table(random, parts[0].class);
    let count = random.between(parts.len(), lines);
    let mut parts = split(random, &parts, count);
    add_unreached(random, &table, &mut parts, lines - count);
    let second = text(&permuted(random, &parts));
    let text = writing::text(&table).expect("a table with a text");
    let batch = Batch { text, second };
    Sized {
        batch,
        lines,
        objects,
    }
}

/// Links A and B, an end, a fork and a tally, all below one class; main gives back what
/// came in, a field of it, or it in a new object.
fn table(random: &mut Random, root: u8) -> Table {
    let mut p = Program::start();
    let base = plus(BASE);
    p.class(0, &[]);
    p.class(BASE, &[base]);
    p.class(BASE, &[base]);
    p.class(BASE, &[]);
    p.class(BASE, &[base, base, minus(0), minus(BASE)]);
    p.class(BASE, &[base, whole(), minus(NUMBER), whole()]);
    match random.below(5) {
        4 if root == TALLY => p.batch_table(TALLY, field(1, param(0))),
        0 if root == A => p.batch_table(A, field(0, param(0))),
        1 => p.batch_table(BASE, new(A, [param(0)])),
        _ => p.batch_table(BASE, param(0)),
    }
}

fn link(class: u8, next: usize) -> Object {
    Object {
        class,
        fields: vec![Ref::Object(next)],
    }
}

/// A ring of as many, all alike but the last.
fn ring(count: usize) -> Vec<Object> {
    let class = |place| if place + 1 == count { B } else { A };
    let part = |place| link(class(place), (place + 1) % count);
    (0..count).map(part).collect()
}

/// A chain of links to an end.
fn chain(random: &mut Random, count: usize) -> Vec<Object> {
    let mut class = |place| if place > 0 && random.chance(30) { B } else { A };
    let part = |place| link(class(place), place + 1);
    let mut parts: Vec<Object> = (0..count - 1).map(part).collect();
    parts.push(Object {
        class: END,
        fields: Vec::new(),
    });
    parts
}

/// A chain in which some objects lead to others further on too.
fn trees(random: &mut Random, count: usize) -> Vec<Object> {
    let mut parts = chain(random, count);
    let between = parts.iter_mut().enumerate().skip(1);
    for (place, part) in between.take(count.saturating_sub(2)) {
        if random.chance(50) {
            let next = Ref::Object(place + 1);
            let mut later = || Ref::Object(random.between(place + 1, count - 1));
            part.class = FORK;
            part.fields = vec![next, later(), Ref::Undetermined, later()];
        }
    }
    parts
}

/// A chain of tallies, whose numbers often agree.
fn tallies(random: &mut Random, count: usize) -> Vec<Object> {
    let mut parts = chain(random, count);
    for part in parts.iter_mut().take(count - 1) {
        let mut number = || Ref::Number(numbers::draw(random));
        let (one, two) = (number(), number());
        let maybe = if random.chance(50) {
            two
        } else {
            Ref::Undetermined
        };
        part.class = TALLY;
        part.fields.extend([one, maybe, two]);
    }
    parts
}

/// A ring of as many tallies, told apart by one of their numbers.
fn counted(count: usize) -> Vec<Object> {
    let part = |place: usize| Object {
        class: TALLY,
        fields: vec![
            Ref::Object((place + 1) % count),
            Ref::Number(7),
            Ref::Number(7),
            Ref::Number((place / 2) as u16 * 0x100 + (place % 2) as u16),
        ],
    };
    (0..count).map(part).collect()
}
