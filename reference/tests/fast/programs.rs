//! Programs without types in the way, for trial runs: any expressions at all,
//! graphs of methods whose answers are rings, and values near 32 objects.

use reference::builder::*;
use reference::generator::random::Random;
use reference::syntax::{Expr, Table};

/// The classes of every program here: 1 without fields, 2 with one, 3 with
/// two, 4 with three, 5 below 2 with one more, 6 without any.
const FIELDS: [usize; 7] = [0, 0, 1, 2, 3, 2, 0];
const HOLDER: u8 = 6;

fn classes() -> Program {
    let mut p = Program::start();
    let any = minus(0);
    p.class(0, &[]);
    p.class(0, &[any]);
    p.class(0, &[any, any]);
    p.class(0, &[any, any, any]);
    p.class(2, &[any]);
    p.class(0, &[]);
    p
}

fn object(class: u8, values: Vec<Expr>) -> Expr {
    Expr::New(class, values)
}

fn pick(random: &mut Random, choices: &[u8]) -> u8 {
    *random.pick(choices).expect("some choices")
}

/// Draws expressions; `params` counts those of the body, and each name has
/// one count of arguments.
struct Draw<'a> {
    random: &'a mut Random,
    counts: &'a [usize],
    params: usize,
    right: bool,
}

impl Draw<'_> {
    fn expr(&mut self, room: usize) -> Expr {
        let kind = self.random.below(100);
        match kind {
            _ if room <= 1 => self.leaf(),
            0..25 => self.leaf(),
            25..35 => field(self.random.below(3) as u8, self.expr(room - 1)),
            35..45 => self.whole(room),
            45..52 => self.choice(room),
            52..72 => self.call(room),
            _ => self.object(room),
        }
    }

    fn leaf(&mut self) -> Expr {
        match self.random.below(10) {
            0..2 if self.right => res(),
            0..5 if self.params > 0 => param(self.random.below(self.params) as u8),
            5..8 => this(),
            8 => self.small(),
            _ => object(pick(self.random, &[1, HOLDER]), vec![]),
        }
    }

    fn small(&mut self) -> Expr {
        number(*self.random.pick(&[0, 0, 1, 1, 2, 40_000]).expect("some"))
    }

    /// Mostly over numbers; else stuck, before the other operand or after it.
    fn whole(&mut self, room: usize) -> Expr {
        let mut operand = || match self.random.below(10) {
            0..6 => self.small(),
            _ => self.expr(room - 1),
        };
        let (left, right) = (operand(), operand());
        match self.random.below(2) {
            0 => sum(left, right),
            _ => difference(left, right),
        }
    }

    fn choice(&mut self, room: usize) -> Expr {
        let by = match self.random.below(10) {
            0..7 => self.small(),
            _ => self.expr(room - 1),
        };
        choose(by, self.expr(room - 1), self.expr(room - 1))
    }

    fn call(&mut self, room: usize) -> Expr {
        let name = self.random.below(self.counts.len());
        let receiver = match self.random.below(10) {
            0 => self.expr(room - 1),
            1 => object(HOLDER, vec![]),
            _ => this(),
        };
        let slip = usize::from(self.random.chance(1));
        let count = (self.counts[name] + slip).min(3);
        let arguments = (0..count).map(|_| self.expr(room - 1)).collect();
        Expr::Call(name as u8, Box::new(receiver), arguments)
    }

    fn object(&mut self, room: usize) -> Expr {
        let class = pick(self.random, &[1, 2, 2, 3, 3, 4, 5]);
        let slip = usize::from(self.random.chance(1));
        let count = (FIELDS[usize::from(class)] + slip).min(4);
        let values = (0..count).map(|_| self.expr(room - 1)).collect();
        object(class, values)
    }
}

/// Methods of any bodies, most of them owned by HOLDER; some names have a
/// method in another class too.
pub fn wild(random: &mut Random) -> Table {
    let mut p = classes();
    let counts: Vec<usize> = (0..random.between(2, 7)).map(|_| random.below(4)).collect();
    let results = (minus(0), minus(0));
    for (name, &params) in counts.iter().enumerate() {
        let mut owners = vec![HOLDER];
        if random.chance(40) {
            owners.push(random.between(1, 5) as u8);
        }
        for owner in owners {
            let room = random.between(2, 4);
            let mut draw = Draw {
                random,
                counts: &counts,
                params,
                right: false,
            };
            let left = draw.expr(room);
            draw.right = true;
            let right = if draw.random.chance(50) {
                res()
            } else {
                draw.expr(room)
            };
            let types = vec![minus(0); params];
            p.method((owner, name as u8), results, &types, (left, right));
        }
    }
    let first = random.below(counts.len());
    let arguments = (0..counts[first]).map(|_| object(1, vec![])).collect();
    let holder = Box::new(object(HOLDER, vec![]));
    p.table(Expr::Call(first as u8, holder, arguments))
}

/// Names from here on walk the graph that the names below them make.
const WALK: u8 = 0x40;
const SAME: u8 = 0x41;
const GRAFT: u8 = 0x42;

/// A vertex of a graph: an object over other vertices, sometimes written out
/// one level more, sometimes a leaf or the undetermined value (name 0).
fn vertex(random: &mut Random, vertices: u8, room: usize) -> Expr {
    let class = pick(random, &[2, 2, 2, 3, 3, 4]);
    let values = (0..FIELDS[usize::from(class)]).map(|_| match random.below(12) {
        0 => object(1, vec![]),
        1 => call(0, this(), []),
        2..4 if room > 1 => vertex(random, vertices, room - 1),
        _ => call(random.between(1, usize::from(vertices)) as u8, this(), []),
    });
    let values = values.collect();
    object(class, values)
}

/// Graphs made by methods that call each other, then walked: how much fuel a
/// walk spends shows where it met an equal value again.
pub fn graph(random: &mut Random) -> Table {
    let mut p = classes();
    let results = (minus(0), minus(0));
    let vertices = random.between(1, 6) as u8;
    p.method((HOLDER, 0), results, &[], (call(0, this(), []), res()));
    for name in 1..=vertices {
        let left = vertex(random, vertices, 3);
        p.method((HOLDER, name), results, &[], (left, res()));
    }
    let any = minus(0);
    let step = call(WALK, this(), [field(0, param(0))]);
    p.method((HOLDER, WALK), results, &[any], (step, param(0)));
    // Met again only when both arguments come round to equal values at once.
    let on = [field(0, param(0)), field(0, param(1))];
    let step = object(3, vec![param(0), call(SAME, this(), on)]);
    p.method((HOLDER, SAME), results, &[any, any], (step, res()));
    // A graph inside a ring that is still open, and calls over such values.
    let inner = object(3, vec![param(0), call(GRAFT, this(), [param(0)])]);
    let right = match random.below(3) {
        0 => res(),
        1 => object(2, vec![res()]),
        _ => call(SAME, this(), [object(2, vec![res()]), param(0)]),
    };
    p.method((HOLDER, GRAFT), results, &[any], (inner, right));
    p.table(over_two(random, vertices))
}

/// An expression over two values of a graph: put together, walked, grafted or
/// followed in step.
fn over_two(random: &mut Random, vertices: u8) -> Expr {
    let mut made = || {
        let name = random.between(1, usize::from(vertices)) as u8;
        let once = call(name, new(HOLDER, []), []);
        match random.below(4) {
            0 => field(0, once),
            1 => new(2, [once]),
            _ => once,
        }
    };
    let (one, two) = (made(), made());
    let holder = || new(HOLDER, []);
    match random.below(6) {
        0 => new(3, [one, two]),
        1 => call(WALK, holder(), [one]),
        2 => call(GRAFT, holder(), [one]),
        3 => new(3, [call(GRAFT, holder(), [one]), two]),
        _ => call(SAME, holder(), [one, two]),
    }
}

/// Some 30 objects laid around a base, near the limit of 32; where the base
/// is the call that lays them, the answer is a ring of them.
pub fn sized(random: &mut Random) -> Table {
    const RING: u8 = 1;
    const BASE: u8 = 2;
    const LAY: u8 = 0x10;
    const FIVE: u8 = 0x20;
    let mut p = classes();
    let results = (minus(0), minus(0));
    let any = [minus(0)];
    for name in [0, 1] {
        let lay = (0..3).fold(param(0), |inner, _| layer(random, inner));
        p.method((HOLDER, LAY + name), results, &any, (lay, param(0)));
        let mut laid = |inner| call(LAY + random.below(2) as u8, this(), [inner]);
        let five = (0..5).fold(param(0), |inner, _| laid(inner));
        p.method((HOLDER, FIVE + name), results, &any, (five, param(0)));
    }
    let left = layer(random, call(BASE, this(), []));
    let left = layer(random, left);
    p.method((HOLDER, BASE), results, &[], (left, res()));
    let base = match random.below(4) {
        0 => new(1, []),
        1 => call(BASE, this(), []),
        _ => call(RING, this(), []),
    };
    let base = (0..random.below(2)).fold(base, |inner, _| layer(random, inner));
    let mut over = base;
    for _ in 0..2 {
        over = call(FIVE + random.below(2) as u8, this(), [over]);
    }
    let over = (0..random.below(2)).fold(over, |inner, _| layer(random, inner));
    p.method((HOLDER, RING), results, &[], (over, res()));
    p.table(call(RING, new(HOLDER, []), []))
}

/// One object around another value, which it may hold twice or beside a leaf.
fn layer(random: &mut Random, inner: Expr) -> Expr {
    match random.below(8) {
        0..6 => new(2, [inner]),
        6 => new(3, [inner.clone(), inner]),
        _ => new(3, [new(1, []), inner]),
    }
}
