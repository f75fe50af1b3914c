//! Appendix 2.3 of 002: whether one gets from a vertex of a graph to another.

use super::booleans::{BOOL, EQ, OR, add_eq, add_or, no, with_booleans};
use super::methods::{closed, maker, same};
use crate::builder::{Program, call, field, new, param, plus, this};
use crate::syntax::Expr;

/// Identity n is class ID + n, from 1 on.
pub const ID: u8 = 4;

pub const CONNECTED: u8 = 1;

/// A program with a graph, and those of its classes whose numbers depend on
/// how many identities there are.
pub struct Graph {
    pub program: Program,
    pub vertex: u8,
    pub fact: u8,
}

impl Graph {
    /// Vertex n, from 1 on, has identity n, is made by method n, and leads to
    /// the vertices in the n-th list.
    pub fn new(identities: u8, lists: &[&[u8]]) -> Graph {
        let mut p = with_booleans();
        p.class(0, &[]);
        for _ in 0..identities {
            p.class(ID, &[]);
        }
        let adj = ID + identities + 2;
        let vertex = p.class(0, &[plus(ID), plus(adj)]);
        p.class(0, &[]);
        let e_adj = p.class(adj, &[]);
        let ne_adj = p.class(adj, &[plus(vertex), plus(adj)]);
        let fact = p.class(0, &[]);
        add_or(&mut p);
        add_eq(&mut p, ID, ID + 1..=ID + identities);
        add_connected(&mut p, vertex, (adj, ne_adj));
        for (number, list) in (1..).zip(lists) {
            let adjacent = list.iter().rfold(new(e_adj, []), |rest, &next| {
                new(ne_adj, [call(next, this(), []), rest])
            });
            let left = new(vertex, [identity(number), adjacent]);
            maker(&mut p, (fact, number), vertex, left);
        }
        Graph {
            program: p,
            vertex,
            fact,
        }
    }

    pub fn made(&self, number: u8) -> Expr {
        call(number, new(self.fact, []), [])
    }
}

pub fn identity(number: u8) -> Expr {
    new(ID + number, [])
}

/// connected, `with false` throughout.
fn add_connected(p: &mut Program, vertex: u8, (adj, ne_adj): (u8, u8)) {
    let id = [plus(ID)];
    let ask = |part| call(CONNECTED, part, [param(0)]);
    same(p, (adj, CONNECTED), BOOL, &id, no());
    let here = call(EQ, field(0, this()), [param(0)]);
    let left = call(OR, here, [ask(field(1, this()))]);
    p.method((vertex, CONNECTED), closed(BOOL), &id, (left, no()));
    let left = call(OR, ask(field(0, this())), [ask(field(1, this()))]);
    p.method((ne_adj, CONNECTED), closed(BOOL), &id, (left, no()));
}
