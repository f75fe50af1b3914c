//! Parts below BASE in any shape or as a ring, and one place of such parts
//! changed. They fit their places; nothing is cut here.

use super::super::super::numbers;
use super::super::super::random::Random;
use super::super::parts::graph;
use super::{A, B, BASE, BROAD, WIDE};
use crate::classes::fields;
use crate::syntax::{MINUS, NUMBER, Table, Type};
use crate::values::{Object, Ref};

/// How often a place is looked for that can be changed.
const TRIES: usize = 20;

/// At most so many parts.
pub fn shape(random: &mut Random, table: &Table, most: usize) -> Vec<Object> {
    let size = match random.below(10) {
        0..3 => random.between(1, 4),
        3..6 => random.between(1, most),
        _ => random.between(most - 2, most),
    };
    if random.chance(60) {
        return ring(random, table, size);
    }
    loop {
        let parts = graph(random, table, BASE);
        if (size / 2..=most).contains(&parts.len()) {
            return parts;
        }
    }
}

/// A ring of parts that are alike until the last is met, which is mostly of
/// another class or changed. Each field leads as far round from one part as from
/// another.
fn ring(random: &mut Random, table: &Table, size: usize) -> Vec<Object> {
    let class = *random.pick(&[A, A, WIDE]).unwrap_or(&A);
    let types = fields(table, class);
    let mut steps = |place: usize| match random.below(4) {
        _ if place == 0 => 1,
        0 => random.below(size),
        1 => size - 1,
        _ => 1,
    };
    let steps: Vec<usize> = (0..types.len()).map(&mut steps).collect();
    let number = numbers::draw(random);
    let part = |place: usize| {
        let held = |(type_, step): (&Type, &usize)| match type_.class {
            NUMBER => Ref::Number(number),
            _ => Ref::Object((place + step) % size),
        };
        let fields = types.iter().zip(&steps).map(held).collect();
        Object { class, fields }
    };
    let mut parts: Vec<Object> = (0..size).map(part).collect();
    let last = size - 1;
    match random.below(10) {
        0 => {}
        1..4 => drop(change_at(random, table, &mut parts, last)),
        _ => parts[last].class = twin(class).unwrap_or(class),
    }
    parts
}

/// Changes one place, the last part more often than others.
pub fn change(random: &mut Random, table: &Table, parts: &mut [Object]) {
    let last = parts.len() - 1;
    for _ in 0..TRIES {
        let place = match random.chance(40) {
            true => last,
            false => random.below(last + 1),
        };
        if change_at(random, table, parts, place).is_some() {
            return;
        }
    }
}

/// Another class, or something else in one field.
fn change_at(random: &mut Random, table: &Table, parts: &mut [Object], place: usize) -> Option<()> {
    let class = parts[place].class;
    if random.chance(45) {
        parts[place].class = twin(class)?;
        return Some(());
    }
    let types = fields(table, class);
    let field = random.below(types.len().max(1));
    let type_ = types.get(field)?;
    let held = parts[place].fields[field];
    let other = match held {
        Ref::Number(_) | Ref::Object(_) if type_.tag == MINUS && random.chance(40) => {
            Ref::Undetermined
        }
        Ref::Number(number) => Ref::Number(beside(random, number)),
        _ if type_.class == NUMBER => Ref::Number(numbers::draw(random)),
        _ => Ref::Object(random.below(parts.len())),
    };
    parts[place].fields[field] = other;
    Some(())
}

/// The class with the same fields.
pub fn twin(class: u8) -> Option<u8> {
    match class {
        A => Some(B),
        B => Some(A),
        WIDE => Some(BROAD),
        BROAD => Some(WIDE),
        _ => None,
    }
}

/// One more or less, in the number or in its high byte.
fn beside(random: &mut Random, number: u16) -> u16 {
    match random.below(3) {
        0 => number.wrapping_add(1),
        1 => number.wrapping_sub(1),
        _ => number ^ 0x100,
    }
}
