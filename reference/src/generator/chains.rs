//! Programs about where methods are found: long chains of classes, in which a
//! few names are declared again and again with classes between that do not.
//! A body makes an object of its owner's class, so that a report tells whose it
//! was, or calls a method on `this` or on a new object. All of it is well
//! typed; `refused` is not even read, for an override with other types.

use super::random::Random;
use crate::builder::{param, plus, this};
use crate::classes::{class_fits, find};
use crate::syntax::{Class, Expr, MAX_CLASSES, MAX_METHODS, MINUS, Method, Table, Type};
use crate::writing;

/// What every method takes and gives.
const ANY: u8 = 0;

pub fn table(random: &mut Random) -> Table {
    let classes = classes(random);
    let mut table = Table {
        methods: methods(random, classes.len()),
        classes,
        input: None,
        main: new(ANY),
    };
    let sketch = table.clone();
    for method in &mut table.methods {
        method.left = body(random, &sketch, method);
        if random.chance(20) {
            method.right = body(random, &sketch, method);
        }
    }
    table.main = call(random, &sketch, None);
    table
}

/// A text refused 5: one method's types differ from those of the nearest of its
/// name above it, mostly with classes between.
pub fn refused(random: &mut Random) -> Vec<u8> {
    loop {
        let mut table = table(random);
        let overriding = |method: &Method| {
            let parent = table.classes[usize::from(method.owner) - 1].parent;
            find(&table, parent, method.name).is_some()
        };
        let methods = 0..table.methods.len();
        let places: Vec<usize> = methods
            .filter(|&place| overriding(&table.methods[place]))
            .collect();
        if let Some(&place) = random.pick(&places) {
            change_types(random, &mut table.methods[place]);
            return writing::encode(&table).expect("a chain's lines are short");
        }
    }
}

fn new(class: u8) -> Expr {
    Expr::New(class, Vec::new())
}

/// Mostly one chain; some classes begin another or branch off.
fn classes(random: &mut Random) -> Vec<Class> {
    let count = random.between(2, MAX_CLASSES);
    let mut class = |number: usize| {
        let parent = match random.chance(85) {
            true => number - 1,
            false => random.below(number),
        };
        Class {
            parent: parent as u8,
            fields: Vec::new(),
        }
    };
    (1..=count).map(&mut class).collect()
}

/// A few names, each in some upper class and a share of the others; in any
/// order, so that numbers do not follow owners.
fn methods(random: &mut Random, classes: usize) -> Vec<Method> {
    let mut names: Vec<u8> = (0..random.between(1, 5)).map(|_| random.byte()).collect();
    names.sort_unstable();
    names.dedup();
    let share = *random.pick(&[0, 4, 12, 35]).expect("a share");
    let mut methods = Vec::new();
    for name in names {
        let upper = random.between(1, classes.div_ceil(2));
        let owners = (1..=classes).filter(|&class| class == upper || random.chance(share));
        methods.extend(owners.map(|owner| method(owner as u8, name)));
    }
    for place in 1..methods.len() {
        methods.swap(place, random.below(place + 1));
    }
    methods.truncate(MAX_METHODS);
    methods
}

/// How many parameters it has depends on the name alone.
fn method(owner: u8, name: u8) -> Method {
    Method {
        owner,
        name,
        first: plus(ANY),
        second: plus(ANY),
        params: vec![plus(ANY); usize::from(name % 3)],
        left: new(owner),
        right: new(owner),
    }
}

fn body(random: &mut Random, table: &Table, method: &Method) -> Expr {
    match random.below(10) {
        0..4 => new(method.owner),
        4 if !method.params.is_empty() => param(0),
        _ => call(random, table, Some(method)),
    }
}

/// A call of a method that the receiver has, in a body or in main.
fn call(random: &mut Random, table: &Table, within: Option<&Method>) -> Expr {
    let called = random.pick(&table.methods).expect("there is a method");
    let known = |class: u8| class_fits(table, class, called.owner);
    let below: Vec<u8> = (1..=table.classes.len() as u8)
        .filter(|&class| known(class))
        .collect();
    let receiver = match within {
        Some(method) if known(method.owner) && random.chance(80) => this(),
        _ => new(*random.pick(&below).expect("the owner")),
    };
    let mut argument = |_: &Type| match within {
        Some(_) if random.chance(50) => this(),
        _ => new(random.below(table.classes.len() + 1) as u8),
    };
    let arguments = called.params.iter().map(&mut argument).collect();
    Expr::Call(called.name, Box::new(receiver), arguments)
}

fn change_types(random: &mut Random, method: &mut Method) {
    match random.below(4) {
        0 => method.first.tag = MINUS,
        1 => method.second.tag = random.between(1, 3) as u8,
        2 => method.second.class = method.owner,
        _ if random.chance(50) && !method.params.is_empty() => method.params.truncate(0),
        _ => method.params.push(plus(ANY)),
    }
}
