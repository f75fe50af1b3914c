//! The same value cut in another way: parts split into several, parts added
//! that nothing reaches, all but the root in another order.

use super::super::numbers;
use super::super::random::Random;
use crate::batch::MAX_PARTS;
use crate::classes::fields;
use crate::syntax::Table;
use crate::values::{Object, Ref};

/// Parts that unfold to the same tree.
pub fn cut(random: &mut Random, table: &Table, parts: &[Object]) -> Vec<Object> {
    let most = match random.below(10) {
        0..5 => parts.len() + random.below(12),
        5..9 => 2 * parts.len() + random.below(40),
        _ => MAX_PARTS,
    };
    let most = most.clamp(parts.len(), MAX_PARTS);
    let count = often_most(random, parts.len(), most);
    let mut all = split(random, parts, count);
    let unreached = often_most(random, count, most) - count;
    add_unreached(random, table, &mut all, unreached);
    permuted(random, &all)
}

/// A number from `low` to `high`, both included, `high` more often than others.
fn often_most(random: &mut Random, low: usize, high: usize) -> usize {
    if random.chance(30) {
        return high;
    }
    random.between(low, high)
}

/// So many parts: some are there several times, and who leads to one of these
/// leads to any of them.
pub fn split(random: &mut Random, parts: &[Object], count: usize) -> Vec<Object> {
    let mut of: Vec<usize> = (0..parts.len()).collect();
    while of.len() < count {
        of.push(random.below(parts.len()));
    }
    let mut copies = vec![Vec::new(); parts.len()];
    for (place, &part) in of.iter().enumerate() {
        copies[part].push(place);
    }
    let mut any = |reference: &Ref| match *reference {
        Ref::Object(part) => Ref::Object(copies[part][random.below(copies[part].len())]),
        other => other,
    };
    let copy = |&part: &usize| Object {
        class: parts[part].class,
        fields: parts[part].fields.iter().map(&mut any).collect(),
    };
    of.iter().map(copy).collect()
}

/// Adds parts that no other leads to. They are of any class, and hold any part
/// or none, also where that does not fit.
pub fn add_unreached(random: &mut Random, table: &Table, parts: &mut Vec<Object>, count: usize) {
    let all = parts.len() + count;
    for _ in 0..count {
        let class = random.below(table.classes.len() + 1) as u8;
        let held = |_| match random.below(all + 2) {
            place if place < all => Ref::Object(place),
            place if place == all => Ref::Number(numbers::draw(random)),
            _ => Ref::Undetermined,
        };
        let fields = fields(table, class).into_iter().map(held).collect();
        parts.push(Object { class, fields });
    }
}

/// The same parts, all but the first in another order.
pub fn permuted(random: &mut Random, parts: &[Object]) -> Vec<Object> {
    let mut order: Vec<usize> = (0..parts.len()).collect();
    for place in (2..parts.len()).rev() {
        order.swap(place, random.between(1, place));
    }
    let mut places = vec![0; parts.len()];
    for (place, &part) in order.iter().enumerate() {
        places[part] = place;
    }
    let moved = |reference: &Ref| match *reference {
        Ref::Object(part) => Ref::Object(places[part]),
        other => other,
    };
    let part = |&part: &usize| Object {
        class: parts[part].class,
        fields: parts[part].fields.iter().map(moved).collect(),
    };
    order.iter().map(part).collect()
}
