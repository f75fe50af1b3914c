//! Programs that put rings together, where one ring comes in: the value of the
//! parts is often one that methods make too, so that calls are met again by it.

use super::super::graphs::{NODE, Node, To};
use super::super::random::Random;
use super::super::rings::{BARE, HOLDER, MIX, PAIR, Rings};
use super::Batch;
use super::cuts::cut;
use super::parts::text;
use crate::batch::{self, MAX_PARTS};
use crate::builder::{call, field, new, param};
use crate::syntax::{Expr, Table};
use crate::values::{Object, Ref};
use crate::writing;

pub fn draw(random: &mut Random) -> Batch {
    // Some values are too large, some mains too long: others are drawn.
    loop {
        let rings = Rings::draw(random);
        let main = main(random, &rings);
        let table = rings.program.batch_table(NODE, main);
        let parts = parts(&rings.graph.0, rings.graph.1);
        if let Some(batch) = batch(random, &table, &parts) {
            return batch;
        }
    }
}

fn batch(random: &mut Random, table: &Table, parts: &[Object]) -> Option<Batch> {
    if parts.len() > MAX_PARTS {
        return None;
    }
    let second = text(&cut(random, table, parts));
    batch::input(table, &second).ok()?;
    let text = writing::text(table)?;
    Some(Batch { text, second })
}

/// The rings that are made and the one that came in, in any order, with a few
/// fields selected first.
fn main(random: &mut Random, rings: &Rings) -> Expr {
    let [one, two, three] = rings.parts.clone();
    let mut all = match random.below(3) {
        0 => [param(0), param(0), one],
        1 => [param(0), one, two],
        _ => [param(0), two, three],
    };
    all.rotate_left(random.below(3));
    let mut along = |part| (0..random.below(3)).fold(part, |inner, _| field(0, inner));
    let [one, two, three] = all.map(&mut along);
    match random.below(4) {
        0 => new(PAIR, [new(PAIR, [one, two]), three]),
        _ => call(MIX, new(HOLDER, []), [one, two, three]),
    }
}

/// The parts of a graph, the one at `start` first, and an object without fields
/// where the graph has one.
fn parts(graph: &[Node], start: usize) -> Vec<Object> {
    let moved = |place: usize| match place {
        0 => start,
        _ if place == start => 0,
        _ => place,
    };
    let held = |to: &To| match *to {
        To::Object(place) => Ref::Object(moved(place)),
        To::Bare => Ref::Object(graph.len()),
        To::Undetermined => Ref::Undetermined,
        To::Number(number) => Ref::Number(number),
    };
    let part = |place: usize| Object {
        class: graph[moved(place)].class,
        fields: graph[moved(place)].fields.iter().map(held).collect(),
    };
    let mut parts: Vec<Object> = (0..graph.len()).map(part).collect();
    let fields = Vec::new();
    parts.push(Object {
        class: BARE,
        fields,
    });
    parts
}
