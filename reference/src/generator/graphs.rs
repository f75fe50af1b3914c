//! Random graphs of objects, and graphs that unfold to the same values or
//! nearly so. How a program makes them is drawn in `rings.rs`.

use super::random::Random;

/// Every NODE leads to one in field 0; a FORK has one field more, a WIDE three,
/// the last of them a number.
pub const NODE: u8 = 1;
pub const A: u8 = 2;
pub const B: u8 = 3;
pub const FORK: u8 = 4;
pub const WIDE: u8 = 5;

/// Objects that an unrolled graph may have.
const LARGEST: usize = 40;

/// Where a field leads.
#[derive(Clone, Copy)]
pub enum To {
    Object(usize),
    Bare,
    Undetermined,
    Number(u16),
}

#[derive(Clone)]
pub struct Node {
    pub class: u8,
    pub fields: Vec<To>,
}

/// Three graphs, the others often like the first.
pub fn random_graphs(random: &mut Random) -> [Vec<Node>; 3] {
    let first = random_graph(random);
    let mut other = || {
        let copy = unrolled(random, &first);
        match random.below(10) {
            0 => first.clone(),
            1..4 => copy,
            4..7 => changed(random, copy),
            _ => random_graph(random),
        }
    };
    let (second, third) = (other(), other());
    [first, second, third]
}

/// Mostly a ring with some ways across; a few objects, or near the limit.
fn random_graph(random: &mut Random) -> Vec<Node> {
    let size = match random.below(10) {
        0..5 => random.between(1, 4),
        5..8 => random.between(5, 12),
        _ => random.between(13, 33),
    };
    // Ways across are gone again and again: few of them in a large graph.
    let across = if size > 6 { 4 } else { 35 };
    let node = |place: usize| {
        let class = match random.below(100) {
            chance if chance < across => FORK,
            chance if chance < across + across / 4 => WIDE,
            chance if chance % 5 == 0 => B,
            _ => A,
        };
        let next = match random.below(12) {
            0 => random.below(size),
            _ => (place + 1) % size,
        };
        let mut fields = vec![To::Object(next)];
        while fields.len() < count(class) {
            fields.push(match random.below(6) {
                _ if fields.len() == 3 => To::Number(random.below(2) as u16),
                0 => To::Bare,
                1 => To::Undetermined,
                _ => To::Object(random.below(size)),
            });
        }
        Node { class, fields }
    };
    (0..size).map(node).collect()
}

fn count(class: u8) -> usize {
    match class {
        FORK => 2,
        WIDE => 4,
        _ => 1,
    }
}

/// Several copies of each object, each leading to any copy of where it led:
/// the same values.
fn unrolled(random: &mut Random, graph: &[Node]) -> Vec<Node> {
    let size = graph.len();
    let copies = random.between(1, (LARGEST / size).min(5));
    let mut all = Vec::new();
    for _ in 0..copies {
        for node in graph {
            let mut node = node.clone();
            for field in &mut node.fields {
                if let To::Object(place) = field {
                    *place += size * random.below(copies);
                }
            }
            all.push(node);
        }
    }
    all
}

/// One object becomes one of another class.
fn changed(random: &mut Random, mut graph: Vec<Node>) -> Vec<Node> {
    let place = random.below(graph.len());
    let node = &mut graph[place];
    match node.class {
        A => node.class = B,
        B => node.class = A,
        WIDE if random.chance(50) => node.fields[3] = To::Number(2),
        _ => node.fields[1] = To::Bare,
    }
    graph
}
