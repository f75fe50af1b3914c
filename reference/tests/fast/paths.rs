//! Programs that select many fields in a row, of different numbers, out of a
//! graph whose objects all have three. They have types.

use reference::builder::*;
use reference::generator::random::Random;
use reference::syntax::{Expr, Table};

const NODE: u8 = 1;
const LETTERS: usize = 4;
const HOLDER: u8 = 6;
const WALK: u8 = 0x40;

/// Fields selected one after the other, the last named first.
fn selected(random: &mut Random, count: usize, from: Expr) -> Expr {
    (0..count).fold(from, |inner, _| field(random.below(3) as u8, inner))
}

/// A graph of up to four objects, each of its own class; a method walks along
/// a path from its argument, and main along another from an object.
pub fn paths(random: &mut Random) -> Table {
    let mut p = Program::start();
    let node = plus(NODE);
    p.class(0, &[node; 3]);
    for _ in 0..LETTERS {
        p.class(NODE, &[]);
    }
    p.class(0, &[]);
    let objects = random.between(2, LETTERS);
    for place in 0..objects as u8 {
        let mut next = || call(random.below(objects) as u8, this(), []);
        let left = new(NODE + 1 + place, [next(), next(), next()]);
        p.method(
            (HOLDER, place),
            (node, minus_open(NODE)),
            &[],
            (left, res()),
        );
    }
    let count = random.between(1, 5);
    let walk = selected(random, count, param(0));
    p.method((HOLDER, WALK), (node, node), &[node], (walk, param(0)));
    let first = call(random.below(objects) as u8, new(HOLDER, []), []);
    let count = random.below(4);
    let path = selected(random, count, first);
    p.table(call(WALK, new(HOLDER, []), [path]))
}
