//! Large accepted programs: several well typed ones in one table, with as many
//! classes as there can be, deep inheritance, objects of the last class, fields
//! of fields, and methods whose two results have different classes.

use super::random::Random;
use super::typed;
use crate::classes::{class_fits, fields};
use crate::syntax::{
    Class, Expr, MAX_CLASSES, MAX_FIELDS, MAX_METHODS, MAX_NESTING, MINUS, NUMBER, Table, Type,
};
use crate::typing::{self, Scope};
use crate::writing;

/// The first class: it holds the answers of several mains.
const BOX: u8 = 1;
const ANY: Type = Type {
    class: 0,
    tag: MINUS,
};
/// Changes that are tried; those after which the program has no type are not made.
const TRIES: usize = 20;

pub fn table(random: &mut Random) -> Table {
    loop {
        let drafted = draft(random);
        if typing::check(&drafted).is_ok() && writing::text(&drafted).is_some() {
            return drafted;
        }
    }
}

fn draft(random: &mut Random) -> Table {
    let mut table = Table {
        classes: vec![Class {
            parent: 0,
            fields: vec![ANY; MAX_FIELDS],
        }],
        methods: Vec::new(),
        input: None,
        main: Expr::New(0, Vec::new()),
    };
    let mut mains = Vec::new();
    loop {
        let part = typed::table(random);
        if table.classes.len() + part.classes.len() >= MAX_CLASSES
            || table.methods.len() + part.methods.len() > MAX_METHODS
        {
            break;
        }
        mains.push(join(&mut table, part));
    }
    add_classes_below(random, &mut table);
    table.main = main_over(random, &table, mains);
    use_classes_below(random, &mut table);
    for _ in 0..TRIES {
        let mut changed = table.clone();
        let place = random.below(changed.methods.len());
        if random.chance(50) {
            widen(random, &mut changed, place);
        } else {
            select_twice(random, &mut changed.methods[place].left);
        }
        if typing::check(&changed).is_ok() && writing::text(&changed).is_some() {
            table = changed;
        }
    }
    table
}

/// Adds the classes and methods of a program, renumbered, and gives its main.
fn join(table: &mut Table, part: Table) -> Expr {
    let before = table.classes.len() as u8;
    let moved = |class: u8| match class {
        0 | NUMBER => class,
        _ => class + before,
    };
    let retype = |type_: &mut Type| type_.class = moved(type_.class);
    for mut class in part.classes {
        class.parent = moved(class.parent);
        class.fields.iter_mut().for_each(retype);
        table.classes.push(class);
    }
    let renumber = |expr: &mut Expr| {
        if let Expr::New(class, _) = expr {
            *class = moved(*class);
        }
    };
    for mut method in part.methods {
        method.owner = moved(method.owner);
        [&mut method.first, &mut method.second]
            .into_iter()
            .chain(&mut method.params)
            .for_each(retype);
        each(&mut method.left, &mut |expr| renumber(expr));
        each(&mut method.right, &mut |expr| renumber(expr));
        table.methods.push(method);
    }
    let mut main = part.main;
    each(&mut main, &mut |expr| renumber(expr));
    main
}

/// Does something to an expression and to all its parts, these first.
fn each(expr: &mut Expr, change: &mut impl FnMut(&mut Expr)) {
    for part in expr.parts_mut() {
        each(part, change);
    }
    change(expr);
}

/// Classes up to the last number, each below one that has no fields.
fn add_classes_below(random: &mut Random, table: &mut Table) {
    while table.classes.len() < MAX_CLASSES {
        let without = classes_without_fields(table);
        let parent = without[random.below(without.len())];
        let fields = Vec::new();
        table.classes.push(Class { parent, fields });
    }
}

fn classes_without_fields(table: &Table) -> Vec<u8> {
    let all = 0..=table.classes.len() as u8;
    all.filter(|&class| fields(table, class).is_empty())
        .collect()
}

/// Objects without fields become such of a class below theirs, often the last.
fn use_classes_below(random: &mut Random, table: &mut Table) {
    let sketch = table.clone();
    let without = classes_without_fields(&sketch);
    let last = MAX_CLASSES as u8;
    let mut lower = |expr: &mut Expr| {
        if let Expr::New(class, values) = expr
            && values.is_empty()
        {
            let fits = |below: u8| class_fits(&sketch, below, *class);
            let below: Vec<u8> = without.iter().copied().filter(|&one| fits(one)).collect();
            *class = match random.pick(&below) {
                _ if fits(last) && random.chance(30) => last,
                Some(&one) => one,
                None => *class,
            };
        }
    };
    for method in &mut table.methods {
        each(&mut method.left, &mut lower);
        each(&mut method.right, &mut lower);
    }
    each(&mut table.main, &mut lower);
}

/// One main, or several in a box, where numbers do not fit.
fn main_over(random: &mut Random, table: &Table, mut mains: Vec<Expr>) -> Expr {
    let place = random.below(mains.len());
    if random.chance(40) {
        return mains.swap_remove(place);
    }
    mains.rotate_left(place);
    let scope = Scope::main(table);
    mains.retain(|main| {
        let type_ = typing::type_of(&scope, main);
        main.nests_within(MAX_NESTING - 1) && type_.is_some_and(|type_| type_.class != NUMBER)
    });
    mains.resize(MAX_FIELDS, Expr::New(0, Vec::new()));
    Expr::New(BOX, mains)
}

/// The second result of a method, and of those of its name, gets a class above.
fn widen(random: &mut Random, table: &mut Table, place: usize) {
    let method = table.methods[place].clone();
    let all = 0..=table.classes.len() as u8;
    let above: Vec<u8> = all
        .filter(|&class| class_fits(table, method.second.class, class))
        .collect();
    let Some(&class) = random.pick(&above) else {
        return;
    };
    for other in &mut table.methods {
        if (other.name, other.second) == (method.name, method.second) {
            other.second.class = class;
        }
    }
}

/// Some part becomes a field of a field of it.
fn select_twice(random: &mut Random, expr: &mut Expr) {
    let mut parts = 0;
    each(expr, &mut |_| parts += 1);
    let chosen = random.below(parts);
    let (outer, inner) = (random.below(2) as u8, random.below(2) as u8);
    let mut place = 0;
    each(expr, &mut |part| {
        if place == chosen {
            let receiver = Box::new(Expr::Field(inner, Box::new(part.clone())));
            *part = Expr::Field(outer, receiver);
        }
        place += 1;
    });
}
