//! The text of a program that builds a graph: a method for each object that is called, `new ..` with `res`. All fields are
//! of type Object-, so that the program has a type unless fields or pairs are taken of open calls.

use crate::graph::{Edge, Graph, PAIR};
use reference::builder::{Program, call, field, minus, minus_open, new, param, plus, res, this};
use reference::syntax::Expr;
use reference::writing;

const UNDETERMINED: u8 = 0xF0;
const MAKE_PAIR: u8 = 0xF1;

/// The text, or nothing when a line is too long or an expression too deep.
pub fn text(graph: &Graph, main: &Edge) -> Option<Vec<u8>> {
    let mut p = Program::start();
    for &count in &graph.counts {
        p.class(0, &vec![minus(0); count]);
    }
    let owner = p.class(0, &[]);
    let any = (minus(0), minus(0));
    let again = call(UNDETERMINED, this(), []);
    p.method((owner, UNDETERMINED), any, &[], (again, res()));
    let exchanged = call(MAKE_PAIR, this(), [param(1), param(0)]);
    let body = (exchanged, new(PAIR, [param(0), param(1)]));
    let pair = (plus(PAIR), plus(PAIR));
    p.method((owner, MAKE_PAIR), pair, &[minus(0), minus(0)], body);
    for node in called(graph, main) {
        let class = graph.nodes[node].class;
        let results = (plus(class), minus_open(class));
        let left = object(graph, node, &this(), 6)?;
        p.method((owner, node as u8), results, &[], (left, res()));
    }
    let main = expr(graph, main, &new(owner, []), 6)?;
    writing::text(&p.table(main))
}

/// Whether the program has a type for sure.
pub fn is_typed(graph: &Graph, main: &Edge) -> bool {
    let nodes = &graph.nodes;
    !matches!(main, Edge::Select(..) | Edge::Undetermined)
        && nodes
            .iter()
            .flat_map(|node| &node.fields)
            .all(|edge| matches!(edge, Edge::Inline(_) | Edge::Call(_) | Edge::Undetermined))
}

/// The objects that have a method: those called from main, from a called object or from one written in place.
fn called(graph: &Graph, main: &Edge) -> Vec<usize> {
    let (mut seen, mut called) = (Vec::new(), Vec::new());
    let mut todo = vec![main];
    while let Some(edge) = todo.pop() {
        let node = match edge {
            Edge::Inline(node) | Edge::Pair(node) => *node,
            Edge::Call(node) | Edge::Select(node, _) => {
                if !called.contains(node) {
                    called.push(*node);
                }
                *node
            }
            Edge::Undetermined => continue,
        };
        if !seen.contains(&node) {
            seen.push(node);
            todo.extend(&graph.nodes[node].fields);
        }
    }
    called
}

fn expr(graph: &Graph, edge: &Edge, receiver: &Expr, room: usize) -> Option<Expr> {
    let asked = |name: usize| call(name as u8, receiver.clone(), []);
    Some(match edge {
        Edge::Inline(node) => object(graph, *node, receiver, room)?,
        Edge::Call(node) => asked(*node),
        Edge::Select(node, path) => path
            .iter()
            .fold(asked(*node), |inner, &place| field(place as u8, inner)),
        Edge::Pair(node) => {
            let values = values(graph, *node, receiver, room)?;
            Expr::Call(MAKE_PAIR, Box::new(receiver.clone()), values)
        }
        Edge::Undetermined => asked(usize::from(UNDETERMINED)),
    })
}

/// `room` ends objects that are written in place inside themselves; nesting itself is the writer's to judge.
fn object(graph: &Graph, node: usize, receiver: &Expr, room: usize) -> Option<Expr> {
    let values = values(graph, node, receiver, room)?;
    Some(Expr::New(graph.nodes[node].class, values))
}

fn values(graph: &Graph, node: usize, receiver: &Expr, room: usize) -> Option<Vec<Expr>> {
    let room = room.checked_sub(1)?;
    let edges = graph.nodes[node].fields.iter();
    edges
        .map(|edge| expr(graph, edge, receiver, room))
        .collect()
}
