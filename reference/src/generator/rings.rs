//! Programs that put rings together: random graphs as parts of new objects,
//! copies of them that are unrolled, turned, cut anywhere or changed in one
//! place, tails over one graph, graphs inside rings, up to some 40 objects.
//! They have types, and never get stuck. The graphs are drawn in `graphs.rs`.

use super::graphs::{A, B, FORK, NODE, Node, To, random_graphs};
use super::random::Random;
use crate::builder::{
    Program, call, field, minus, minus_open, new, number, param, plus, res, this, whole,
};
use crate::calls::{Mode, open};
use crate::fast;
use crate::refusals::{REPORT_LENGTH, WORK_LENGTH};
use crate::syntax::{Expr, Table};
use crate::writing;

pub(super) const BARE: u8 = 6;
pub(super) const HOLDER: u8 = 7;
pub(super) const PAIR: u8 = 8;
const BOX: u8 = 9;

const AROUND: u8 = 0xF0;
pub(super) const MIX: u8 = 0xF1;
const UNDETERMINED: u8 = 0xF2;

/// A program, the parts that its main is over, and the graph of the first part
/// with the object that it starts at.
pub struct Rings {
    pub(super) program: Program,
    pub(super) parts: [Expr; 3],
    pub(super) graph: (Vec<Node>, usize),
    main: Expr,
}

impl Rings {
    pub fn draw(random: &mut Random) -> Rings {
        // Some have a line too long: others are drawn.
        loop {
            let rings = attempt(random);
            if writing::text(&rings.table()).is_some() {
                return rings;
            }
        }
    }

    fn table(&self) -> Table {
        self.program.table(self.main.clone())
    }

    pub fn text(&self) -> Vec<u8> {
        self.program.text(self.main.clone())
    }

    /// Whether some object of one part is equal to one of another: together
    /// they have fewer than one by one. Objects without fields do not count.
    pub fn merges(&self) -> bool {
        let [one, two, three] = &self.parts;
        let pairs = new(PAIR, [new(PAIR, [one.clone(), two.clone()]), three.clone()]);
        let alone = self.parts.iter().map(|part| self.objects(part.clone()));
        let alone: Option<Vec<usize>> = alone.collect();
        match (self.objects(pairs), alone) {
            (Some(together), Some(alone)) => together < 2 + alone.iter().sum::<usize>(),
            _ => false,
        }
    }

    /// The objects with fields in the value of this main, if it has one.
    fn objects(&self, main: Expr) -> Option<usize> {
        let text = self.program.text(main);
        let (mut report, mut work) = (vec![0; REPORT_LENGTH], vec![0; WORK_LENGTH]);
        let answer = fast::run(Mode::Trial, &text, open(u16::MAX), &mut report, &mut work);
        let report = &report[..answer.length];
        let lines = report.split(|&byte| byte == b'\n');
        let with_fields = lines.filter(|line| line.len() > "05000000".len());
        report.starts_with(b"05").then(|| with_fields.count())
    }
}

fn attempt(random: &mut Random) -> Rings {
    let graphs = random_graphs(random);
    let starts = [0, 1, 2].map(|number| random.below(graphs[number].len()));
    let mut p = classes();
    for (number, graph) in graphs.iter().enumerate() {
        add_graph(&mut p, random, (number, graph), starts[number]);
    }
    add_mix(&mut p, random);
    let made = |number| call(name(number, starts[number]), new(HOLDER, []), []);
    let parts = [0, 1, 2].map(made);
    let mut part = |number: usize| {
        let part = parts[number].clone();
        (0..random.below(3)).fold(part, |inner, _| field(0, inner))
    };
    let [one, two, three] = [part(0), part(1), part(2)];
    let main = match random.below(4) {
        0 => new(BOX, [one, two, three, new(BARE, [])]),
        1 => new(PAIR, [new(PAIR, [one, two]), three]),
        _ => call(MIX, new(HOLDER, []), [one, two, three]),
    };
    let [graph, ..] = graphs;
    Rings {
        program: p,
        parts,
        graph: (graph, starts[0]),
        main,
    }
}

fn classes() -> Program {
    let mut p = Program::start();
    let any = minus(0);
    p.class(0, &[plus(NODE)]);
    p.class(NODE, &[]);
    p.class(NODE, &[]);
    p.class(NODE, &[any]);
    p.class(NODE, &[any, any, whole()]);
    p.class(0, &[]);
    p.class(0, &[]);
    p.class(0, &[any, any]);
    p.class(0, &[any; 4]);
    p
}

/// The method that makes an object of a graph.
fn name(graph: usize, place: usize) -> u8 {
    (64 * graph + place) as u8
}

/// A method for the object at `start`, and for each that is called from there.
fn add_graph(
    p: &mut Program,
    random: &mut Random,
    (number, graph): (usize, &[Node]),
    start: usize,
) {
    let types = (plus(NODE), minus_open(NODE));
    let (mut made, mut todo) = (Vec::new(), vec![start]);
    while let Some(place) = todo.pop() {
        if !made.contains(&place) {
            made.push(place);
            let mut draw = Draw {
                random,
                number,
                graph,
                called: &mut todo,
            };
            let left = draw.object(place, 5);
            p.method((HOLDER, name(number, place)), types, &[], (left, res()));
        }
    }
}

/// Draws which objects of a graph are written in place, and which are called.
struct Draw<'a> {
    random: &'a mut Random,
    number: usize,
    graph: &'a [Node],
    called: &'a mut Vec<usize>,
}

impl Draw<'_> {
    fn object(&mut self, place: usize, room: usize) -> Expr {
        let mut values = Vec::new();
        for (field, &to) in self.graph[place].fields.iter().enumerate() {
            let laid = self.random.chance(if field == 0 { 80 } else { 10 });
            values.push(match to {
                To::Object(next) if laid && room > 2 => self.object(next, room - 1),
                To::Object(next) => {
                    self.called.push(next);
                    call(name(self.number, next), this(), [])
                }
                To::Bare => new(BARE, []),
                To::Undetermined => call(UNDETERMINED, this(), []),
                To::Number(held) => number(held),
            });
        }
        Expr::New(self.graph[place].class, values)
    }
}

/// A ring around a value, an undetermined value, and a method that puts three
/// graphs together, now and then with them exchanged.
fn add_mix(p: &mut Program, random: &mut Random) {
    let any = (minus(0), minus(0));
    let ring = (plus(NODE), minus_open(NODE));
    let inner = call(AROUND, this(), [param(0)]);
    let around = new(FORK, [new(A, [inner]), param(0)]);
    p.method((HOLDER, AROUND), ring, &[minus(0)], (around, res()));
    let endless = call(UNDETERMINED, this(), []);
    p.method((HOLDER, UNDETERMINED), any, &[], (endless, res()));
    let over = mixed(random, 4);
    let left = match random.below(3) {
        0 => {
            let turned = call(MIX, this(), [param(1), param(2), param(0)]);
            new(PAIR, [over, turned])
        }
        _ => over,
    };
    p.method((HOLDER, MIX), any, &[plus(NODE); 3], (left, res()));
}

/// An object over the three parameters.
fn mixed(random: &mut Random, room: usize) -> Expr {
    let sort = random.below(10);
    let mut part = || mixed(random, room - 1);
    match sort {
        _ if room <= 2 => tail(random, room),
        0..3 => new(PAIR, [part(), part()]),
        3..6 => new(BOX, [part(), part(), part(), part()]),
        6..8 => call(AROUND, this(), [tail(random, room - 1)]),
        _ => tail(random, room),
    }
}

/// A parameter, what it leads to, or objects that lead to it.
fn tail(random: &mut Random, room: usize) -> Expr {
    match random.below(8) {
        0..2 if room > 1 => new(A, [tail(random, room - 1)]),
        2..4 if room > 1 => new(B, [tail(random, room - 1)]),
        4 if room > 1 => field(0, tail(random, room - 1)),
        _ => param(random.below(3) as u8),
    }
}
