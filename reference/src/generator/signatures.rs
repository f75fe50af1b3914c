//! Drafts of class tables without bodies: classes, the kinds of methods and
//! their signatures, overrides. Nothing here is checked.

use super::random::Random;
use crate::builder::whole;
use crate::classes::{class_fits, fields};
use crate::syntax::{
    Class, Expr, MAX_FIELDS, MAX_PARAMETERS, MINUS, MINUS_OPEN, Method, NUMBER, PLUS, PLUS_OPEN,
    Table, Type,
};

/// What a method's body is to be.
#[derive(Clone, Copy, PartialEq)]
pub enum Kind {
    /// A new object round a call of a ring method, with res.
    Ring,
    /// Closed results on both sides.
    Plain,
    /// Minus results, which may be undetermined.
    Minus,
    /// A call of itself on an argument grown by a few objects.
    Growing,
    /// A number as parameter 0, which calls of itself count down or up.
    Counting,
}

/// A kind; the last one only where numbers are used.
pub fn kind(random: &mut Random, numbers: bool) -> Kind {
    match random.below(100) {
        _ if numbers && random.chance(35) => Kind::Counting,
        0..50 => Kind::Ring,
        50..65 => Kind::Plain,
        65..93 => Kind::Minus,
        _ => Kind::Growing,
    }
}

/// Class 1 has no fields; the others take what their parents leave.
pub fn classes(random: &mut Random, numbers: bool) -> Vec<Class> {
    let count = random.between(2, 7);
    let mut classes: Vec<Class> = Vec::new();
    let mut used = vec![0];
    for number in 1..=count {
        let parent = if random.chance(50) {
            0
        } else {
            random.below(number)
        };
        let room = MAX_FIELDS - used[parent];
        let own = match number {
            1 => 0,
            _ => room.min(*random.pick(&[0, 1, 1, 1, 2, 2, 3, 4]).unwrap_or(&0)),
        };
        let fields = (0..own).map(|_| closed_type(random, count, numbers));
        let fields = fields.collect();
        used.push(used[parent] + own);
        classes.push(Class {
            parent: parent as u8,
            fields,
        });
    }
    classes
}

/// Object- often: it takes every closed object, the undetermined value too.
fn closed_type(random: &mut Random, count: usize, numbers: bool) -> Type {
    if numbers && random.chance(35) {
        return number_type(random);
    }
    if random.chance(20) {
        return Type {
            class: 0,
            tag: MINUS,
        };
    }
    let class = random.below(count + 1) as u8;
    let tag = if random.chance(70) { PLUS } else { MINUS };
    Type { class, tag }
}

/// Mostly with the tag that sums ask for.
fn number_type(random: &mut Random) -> Type {
    let tag = if random.chance(85) { PLUS } else { MINUS };
    Type { class: NUMBER, tag }
}

/// What a method is drafted for.
#[derive(Clone, Copy)]
pub struct Draft {
    pub name: u8,
    pub kind: Kind,
    pub numbers: bool,
}

pub fn method(random: &mut Random, table: &Table, draft: Draft) -> Option<Method> {
    let Draft {
        name,
        kind,
        numbers,
    } = draft;
    let count = table.classes.len();
    // Half of the methods share an owner, so that they call each other.
    let owner = if random.chance(50) {
        1
    } else {
        random.between(1, count) as u8
    };
    let with_fields: Vec<u8> = (1..=count as u8)
        .filter(|&class| !fields(table, class).is_empty())
        .collect();
    let mut params: Vec<Type> = Vec::new();
    for _ in 0..*random.pick(&[0, 0, 0, 1, 1, 2, MAX_PARAMETERS])? {
        params.push(closed_type(random, count, numbers));
    }
    let class = match kind {
        Kind::Plain | Kind::Minus | Kind::Counting if numbers && random.chance(40) => NUMBER,
        Kind::Ring | Kind::Growing => *random.pick(&with_fields)?,
        Kind::Counting if random.chance(75) => *random.pick(&with_fields)?,
        Kind::Minus if random.chance(50) => 0,
        _ => random.below(count + 1) as u8,
    };
    let (first, second) = match kind {
        Kind::Ring => (PLUS, *random.pick(&[MINUS_OPEN, MINUS_OPEN, MINUS])?),
        Kind::Plain => (PLUS, *random.pick(&[PLUS, PLUS, PLUS_OPEN])?),
        Kind::Minus => (MINUS, MINUS),
        Kind::Growing => (PLUS, PLUS),
        Kind::Counting if class == NUMBER => (PLUS, PLUS),
        Kind::Counting => *random.pick(&[(PLUS, MINUS_OPEN), (PLUS, PLUS_OPEN), (MINUS, MINUS)])?,
    };
    let first = Type { class, tag: first };
    let second = Type { class, tag: second };
    if kind == Kind::Growing {
        params = vec![first];
    }
    if kind == Kind::Counting {
        params.truncate(MAX_PARAMETERS - 1);
        params.insert(0, whole());
    }
    Some(Method {
        owner,
        name,
        first,
        second,
        params,
        left: Expr::This,
        right: Expr::This,
    })
}

/// Gives some methods another body in a class below their owner.
pub fn add_overrides(random: &mut Random, table: &mut Table, kinds: &mut Vec<Kind>) {
    for place in 0..table.methods.len() {
        let method = table.methods[place].clone();
        let below: Vec<u8> = (1..=table.classes.len() as u8)
            .filter(|&class| class != method.owner && class_fits(table, class, method.owner))
            .collect();
        if random.chance(35)
            && let Some(&owner) = random.pick(&below)
        {
            table.methods.push(Method { owner, ..method });
            kinds.push(kinds[place]);
        }
    }
}
