//! One value comes in, and main makes the other of it: a new object over its
//! fields, or over objects made like them, equal or changed in one place; or
//! main compares two parts of the value.

use super::super::super::random::Random;
use super::shapes::{shape, twin};
use super::{BASE, Drawn};
use crate::builder::{Program, difference, field, number, param, plus, sum};
use crate::classes::{fields, fits};
use crate::syntax::{Expr, NUMBER, PLUS, Table, Type};
use crate::values::{MAX_OBJECTS, Object, Ref};

/// The longest way of fields from what came in, and how deep new objects stand in
/// each other: a main has room for no more.
const LONGEST: usize = 3;
const DEEPEST: usize = 2;

/// Fields of what came in, one after the other, with their type and what they
/// lead to.
#[derive(Clone)]
struct Way {
    expr: Expr,
    type_: Type,
    to: Ref,
}

/// Main compares a part with one made like it, or with any other.
pub fn drawn(random: &mut Random, program: &Program) -> Option<Drawn> {
    let table = program.table(Expr::New(0, Vec::new()));
    let parts = shape(random, &table, MAX_OBJECTS);
    let ways = ways(&table, &parts);
    let mut maker = Maker {
        random,
        table: &table,
        parts: &parts,
        ways: &ways,
    };
    let one = match maker.random.chance(70) {
        true => ways[0].clone(),
        false => maker.way(plus(BASE))?,
    };
    let two = match maker.random.below(6) {
        0 => maker.way(plus(BASE))?.expr,
        sort => {
            let mut made = maker.like(&one, DEEPEST)?;
            if sort > 1 {
                maker.change(&mut made)?;
            }
            made
        }
    };
    Some(Drawn::new(random, program, parts, [one.expr, two]))
}

/// All ways that have a type, the shortest first.
fn ways(table: &Table, parts: &[Object]) -> Vec<Way> {
    let mut ways = vec![Way {
        expr: param(0),
        type_: plus(parts[0].class),
        to: Ref::Object(0),
    }];
    let mut last = ways.clone();
    for _ in 0..LONGEST {
        last = last
            .iter()
            .flat_map(|way| onward(table, parts, way))
            .collect();
        ways.extend(last.iter().cloned());
    }
    ways
}

/// One field further.
fn onward(table: &Table, parts: &[Object], way: &Way) -> Vec<Way> {
    let Ref::Object(place) = way.to else {
        return Vec::new();
    };
    if way.type_.tag != PLUS {
        return Vec::new();
    }
    let known = fields(table, way.type_.class);
    let held = (0..).zip(known).zip(&parts[place].fields);
    held.map(|((place, type_), &to)| Way {
        expr: field(place, way.expr.clone()),
        type_,
        to,
    })
    .collect()
}

struct Maker<'a> {
    random: &'a mut Random,
    table: &'a Table,
    parts: &'a [Object],
    ways: &'a [Way],
}

impl Maker<'_> {
    /// Any way that may stand where this type is wanted.
    fn way(&mut self, wanted: Type) -> Option<Way> {
        let fitting = |way: &&Way| fits(self.table, way.type_, wanted);
        let fitting: Vec<&Way> = self.ways.iter().filter(fitting).collect();
        self.random.pick(&fitting).map(|&way| way.clone())
    }

    /// A new object equal to where a way leads, if all its fields are known, so
    /// deep at most.
    fn like(&mut self, way: &Way, room: usize) -> Option<Expr> {
        let Ref::Object(place) = way.to else {
            return None;
        };
        let part = &self.parts[place];
        let onward = onward(self.table, self.parts, way);
        if onward.len() < part.fields.len() {
            return None;
        }
        let value = |way: Way| match room > 1 && self.random.chance(30) {
            true => self.like(&way, room - 1).unwrap_or(way.expr),
            false => way.expr,
        };
        Some(Expr::New(
            part.class,
            onward.into_iter().map(value).collect(),
        ))
    }

    /// Changes one place of an object that main makes: its class, what a field
    /// holds, a number by one.
    fn change(&mut self, made: &mut Expr) -> Option<()> {
        let Expr::New(class, values) = made else {
            return None;
        };
        if self.random.chance(25) {
            *class = twin(*class)?;
            return Some(());
        }
        let place = self.random.below(values.len().max(1));
        let type_ = *fields(self.table, *class).get(place)?;
        let value = values.get_mut(place)?;
        if matches!(value, Expr::New(..)) && self.random.chance(70) {
            return self.change(value);
        }
        *value = match self.random.below(4) {
            0 if type_.class == NUMBER => difference(value.clone(), number(1)),
            1 | 2 if type_.class == NUMBER => sum(value.clone(), number(1)),
            _ => self.way(type_)?.expr,
        };
        Some(())
    }
}

/// What an expression of main gives, its new objects after the others. Nothing
/// for a sum that is too large.
pub fn value(objects: &mut Vec<Object>, expr: &Expr) -> Option<Ref> {
    let mut both = |left: &Expr, right: &Expr| {
        let numbers = (value(objects, left)?, value(objects, right)?);
        match numbers {
            (Ref::Number(left), Ref::Number(right)) => Some((left, right)),
            _ => None,
        }
    };
    match expr {
        Expr::Param(0) => Some(Ref::Object(0)),
        Expr::Field(field, receiver) => match value(objects, receiver)? {
            Ref::Object(place) => objects[place].fields.get(usize::from(*field)).copied(),
            _ => None,
        },
        Expr::New(class, values) => {
            let fields = values.iter().map(|held| value(objects, held));
            let fields = fields.collect::<Option<Vec<Ref>>>()?;
            let class = *class;
            objects.push(Object { class, fields });
            Some(Ref::Object(objects.len() - 1))
        }
        Expr::Number(number) => Some(Ref::Number(*number)),
        Expr::Sum(left, right) => {
            let (left, right) = both(left, right)?;
            left.checked_add(right).map(Ref::Number)
        }
        Expr::Difference(left, right) => {
            let (left, right) = both(left, right)?;
            Some(Ref::Number(left.saturating_sub(right)))
        }
        _ => None,
    }
}
