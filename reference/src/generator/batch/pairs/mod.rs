//! Two values that are alike but for one place, or wholly, and a main that
//! compares them by a call: `m(x, y)` calls `m(y, x)`, which is met again at once
//! exactly if x and y unfold to the same tree. Here is the program, and values
//! that both come in; values that main makes are in `made.rs`, shapes and changes
//! in `shapes.rs`. Whether the two are equal is not said here.

mod made;
mod shapes;

use super::super::random::Random;
use super::Batch;
use super::cuts::{cut, permuted, split};
use super::parts::text;
use crate::builder::{Program, call, field, minus, new, param, plus, this, whole};
use crate::calls::{Mode, open};
use crate::fast;
use crate::refusals::{REPORT_LENGTH, WORK_LENGTH};
use crate::syntax::{Expr, MAX_FIELDS, NUMBER, Table, Type};
use crate::values::{MAX_OBJECTS, Object, Ref};
use crate::writing;

/// All parts that are compared are below BASE. A and B have the same fields, and
/// so have WIDE and BROAD.
const BASE: u8 = 1;
const A: u8 = 2;
const B: u8 = 3;
const WIDE: u8 = 4;
const BROAD: u8 = 5;
/// What holds two values that come in together; who has the method.
const PAIR: u8 = 6;
const HOLDER: u8 = 7;

const COMPARE: u8 = 1;

/// Objects of the first value where both come in: with as many of the second and
/// the one that holds them they are few enough.
const MOST_OF_TWO: usize = 15;

/// Two texts, and what they compare: the parts as they are written, after them
/// the objects that main makes, and which two of these.
pub struct Pair {
    pub batch: Batch,
    pub objects: Vec<Object>,
    pub one: Ref,
    pub two: Ref,
}

pub fn draw(random: &mut Random) -> Pair {
    match random.chance(50) {
        true => given(random),
        false => made(random),
    }
}

/// Both values come in.
pub fn given(random: &mut Random) -> Pair {
    accepted(random, |random, program| Some(both_given(random, program)))
}

/// One comes in; main makes the other of it, or selects both.
pub fn made(random: &mut Random) -> Pair {
    accepted(random, made::drawn)
}

/// Some values are too large, some mains too deep: others are drawn.
fn accepted(random: &mut Random, drawn: impl Fn(&mut Random, &Program) -> Option<Drawn>) -> Pair {
    loop {
        let program = program(random);
        let drawn = drawn(random, &program);
        if let Some(pair) = drawn.and_then(|drawn| drawn.pair(random)) {
            return pair;
        }
    }
}

/// A program with its main, parts of its value, and what main compares.
struct Drawn {
    table: Table,
    parts: Vec<Object>,
    compared: [Expr; 2],
}

impl Drawn {
    /// The root's class is that of main's parameter.
    fn new(random: &mut Random, program: &Program, parts: Vec<Object>, two: [Expr; 2]) -> Drawn {
        let mut compared = two;
        if random.chance(50) {
            compared.reverse();
        }
        let main = call(COMPARE, new(HOLDER, []), compared.clone());
        Drawn {
            table: program.batch_table(parts[0].class, main),
            parts,
            compared,
        }
    }

    /// The pair with its parts cut at random, if it is accepted and its main gets
    /// as far as the call.
    fn pair(self, random: &mut Random) -> Option<Pair> {
        let Drawn { table, parts, .. } = self;
        let mut objects = match random.below(10) {
            0..5 => parts,
            5..8 => permuted(random, &parts),
            _ => cut(random, &table, &parts),
        };
        let batch = Batch {
            text: writing::text(&table)?,
            second: text(&objects),
        };
        if !lacks_only_fuel(&batch) {
            return None;
        }
        let [one, two] = self.compared;
        let one = made::value(&mut objects, &one)?;
        let two = made::value(&mut objects, &two)?;
        Some(Pair {
            batch,
            objects,
            one,
            two,
        })
    }
}

/// Whether a run is not refused and lacks nothing but fuel.
fn lacks_only_fuel(batch: &Batch) -> bool {
    let Batch { text, second } = batch;
    let (mut report, mut work) = (vec![0; REPORT_LENGTH], vec![0; WORK_LENGTH]);
    let mode = Mode::Checked;
    let answer = fast::run_batch(mode, text, second, open(0), &mut report, &mut work);
    report[..answer.length] == *b"0702\n"
}

/// So many types of fields, the first a part.
fn types(random: &mut Random, count: usize) -> Vec<Type> {
    let (base, maybe) = (plus(BASE), minus(BASE));
    let sorts = [base, base, maybe, maybe, whole(), minus(NUMBER)];
    let mut types = vec![base];
    types.extend((1..MAX_FIELDS).map(|_| sorts[random.below(sorts.len())]));
    types.truncate(count);
    types
}

/// The classes and the method that compares. Where BASE has the fields, main can
/// reach far into a value; where it has none, a part of class BASE is an end.
fn program(random: &mut Random) -> Program {
    let count = *random.pick(&[1, 1, 2, 3, 4]).unwrap_or(&1);
    let fields = types(random, count);
    let (common, own) = match random.chance(70) {
        true => (fields, Vec::new()),
        false => (Vec::new(), fields),
    };
    let more = random.between(0, MAX_FIELDS - common.len());
    let more = types(random, more);
    let base = plus(BASE);
    let mut p = Program::start();
    p.class(0, &common);
    p.class(BASE, &own);
    p.class(BASE, &own);
    p.class(BASE, &more);
    p.class(BASE, &more);
    p.class(0, &[base, base]);
    p.class(0, &[]);
    let exchanged = call(COMPARE, this(), [param(1), param(0)]);
    let results = (minus(BASE), minus(BASE));
    let sides = (exchanged, param(1));
    p.method((HOLDER, COMPARE), results, &[base, base], sides);
    p
}

/// Both values in the fields of one part: the second is the first, or nearly so,
/// its parts often written several times. It may lead to parts of the first.
fn both_given(random: &mut Random, program: &Program) -> Drawn {
    let table = program.table(Expr::New(0, Vec::new()));
    let first = shapes::shape(random, &table, MOST_OF_TWO);
    let mut second = match random.chance(50) {
        true => first.clone(),
        false => {
            let count = random.between(first.len(), MAX_OBJECTS);
            split(random, &first, count)
        }
    };
    if random.chance(75) {
        shapes::change(random, &table, &mut second);
    }
    // One copy leads to the other only where places are the same.
    let across = match second.len() == first.len() && random.chance(30) {
        true => 20,
        false => 0,
    };
    let (start, next) = (1, 1 + first.len());
    let roots = vec![Ref::Object(start), Ref::Object(next)];
    let mut parts = vec![Object {
        class: PAIR,
        fields: roots,
    }];
    parts.extend(moved(&first, |_| start));
    parts.extend(moved(&second, |_| match random.chance(across) {
        true => start,
        false => next,
    }));
    let two = [field(0, param(0)), field(1, param(0))];
    Drawn::new(random, program, parts, two)
}

/// Parts whose references lead so many places further on.
fn moved(parts: &[Object], mut by: impl FnMut(usize) -> usize) -> Vec<Object> {
    let mut held = |held: &Ref| match *held {
        Ref::Object(place) => Ref::Object(place + by(place)),
        leaf => leaf,
    };
    let part = |part: &Object| Object {
        class: part.class,
        fields: part.fields.iter().map(&mut held).collect(),
    };
    parts.iter().map(part).collect()
}
