//! A text nearly as long as one that passes 1 to 5 can be: 32 classes of 4
//! fields (but one without), 64 methods that fill their lines to 255 bytes
//! and a main of 250. All of it is well typed.
//!
//! That is 33,989 of at most 34,015 characters. A class frame has at most 12
//! bytes, so the 49,567 characters of refusal 1 are out of reach.

use super::random::Random;
use crate::syntax::{
    Class, Expr, MAX_CLASSES, MAX_METHODS, MAX_NESTING, MINUS, Method, PLUS, Table, Type,
};

/// A class without fields, which owns the methods; all others have four
/// fields of type Object-, where any closed value fits.
const LEAF: u8 = 1;
const ANY: Type = Type {
    class: 0,
    tag: MINUS,
};

pub fn table(random: &mut Random) -> Table {
    let fields = vec![ANY; 4];
    let mut classes = vec![Class { parent: 0, fields }; MAX_CLASSES];
    classes[usize::from(LEAF) - 1].fields.clear();
    let methods = (0..MAX_METHODS as u8).map(|name| method(random, name));
    let methods = methods.collect();
    let main = object(random, 249, MAX_NESTING, false);
    Table {
        classes,
        methods,
        input: None,
        main,
    }
}

/// Frame byte, owner, name, two types, count and a parameter take 10 bytes,
/// which leaves 245 for the two expressions.
fn method(random: &mut Random, name: u8) -> Method {
    let param = Type {
        class: LEAF,
        tag: PLUS,
    };
    let size = random.between(100, 144);
    Method {
        owner: LEAF,
        name,
        first: ANY,
        second: ANY,
        params: vec![param],
        left: object(random, size, MAX_NESTING, true),
        right: object(random, 245 - size, MAX_NESTING, true),
    }
}

/// A new object of exactly `size` bytes. Its values are about equally long,
/// so that at most 4 levels are used.
fn object(random: &mut Random, size: usize, room: usize, in_body: bool) -> Expr {
    let class = random.between(2, MAX_CLASSES) as u8;
    let sizes = split(random, size - 3, in_body);
    let values = sizes
        .iter()
        .map(|&size| sized(random, size, room - 1, in_body));
    Expr::New(class, values.collect())
}

/// Four sizes that expressions have. A body has none of 4 bytes; main, without
/// variables, only has odd multiples of 3.
fn split(random: &mut Random, total: usize, in_body: bool) -> [usize; 4] {
    let (base, step) = if in_body { (1, 1) } else { (3, 6) };
    loop {
        let mut sizes = [base; 4];
        let mut steps = (total - 4 * base) / step;
        for (place, size) in sizes.iter_mut().take(3).enumerate() {
            let share = steps / (4 - place) + random.below(2);
            let share = share.min(steps);
            *size += step * share;
            steps -= share;
        }
        sizes[3] += step * steps;
        if !sizes.contains(&4) {
            return sizes;
        }
    }
}

/// A closed expression of exactly `size` bytes.
fn sized(random: &mut Random, size: usize, room: usize, in_body: bool) -> Expr {
    match size {
        1..=3 => leaf(size),
        5..=6 => call(random, size, in_body),
        9 if !in_body => call(random, size, in_body),
        7..=9 if random.chance(60) => call(random, size, in_body),
        _ => object(random, size, room, in_body),
    }
}

/// A value of class LEAF and tag 00; only the longest has no variable.
fn leaf(size: usize) -> Expr {
    match size {
        1 => Expr::This,
        2 => Expr::Param(0),
        _ => Expr::New(LEAF, Vec::new()),
    }
}

fn call(random: &mut Random, size: usize, in_body: bool) -> Expr {
    let both = size - 3;
    let receiver = if in_body {
        random.between(both.saturating_sub(3).max(1), 3.min(both - 1))
    } else {
        3
    };
    let name = random.below(MAX_METHODS) as u8;
    let argument = leaf(both - receiver);
    Expr::Call(name, Box::new(leaf(receiver)), vec![argument])
}
