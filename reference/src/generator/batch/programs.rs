//! Programs with an `04` main: a well typed program, now and then a large one,
//! with another main over parameter 0, and such programs with a part changed.

use super::super::exprs::{ALL_TAGS, Maker, Want};
use super::super::random::Random;
use super::super::{damaged, illtyped, large, typed};
use super::written;
use crate::classes::fields;
use crate::reading;
use crate::syntax::{Expr, MAX_NESTING, MINUS, NUMBER, PLUS, Table, Type};
use crate::text::{self, push_line};
use crate::typing::{self, Scope};
use crate::writing;

/// Mains that are tried on one program.
const TRIES: usize = 10;

/// An accepted table with a text.
pub fn table(random: &mut Random) -> Table {
    loop {
        let mut table = match random.below(20) {
            0 => large::table(random),
            _ => typed::table(random),
        };
        let class = input_class(random, &table);
        table.input = Some(Type { class, tag: PLUS });
        for _ in 0..TRIES {
            if let Some(main) = main(random, &table)
                && (names_input(&main) || random.chance(5))
            {
                table.main = main;
                if typing::check(&table).is_ok() && writing::text(&table).is_some() {
                    return table;
                }
            }
        }
    }
}

/// The class of the parameter: one that a method has or takes, mostly.
fn input_class(random: &mut Random, table: &Table) -> u8 {
    let method = &table.methods[random.below(table.methods.len())];
    match (random.below(10), random.pick(&method.params)) {
        (0..4, Some(param)) if param.class != NUMBER => param.class,
        (4..7, _) => method.owner,
        _ => random.below(table.classes.len() + 1) as u8,
    }
}

fn names_input(expr: &Expr) -> bool {
    *expr == Expr::Param(0) || expr.parts().iter().any(|part| names_input(part))
}

/// An expression over parameter 0: itself, fields of it, a call, or an object.
fn main(random: &mut Random, table: &Table) -> Option<Expr> {
    let class = table.input?.class;
    let room = random.between(2, MAX_NESTING);
    match random.below(10) {
        0 => return Some(Expr::Param(0)),
        1..3 => return Some(path(random, table, class)),
        _ => {}
    }
    let mut maker = Maker::new(Scope::main(table), random);
    if maker.random.chance(75) {
        let method = maker.random.pick(&table.methods)?;
        return maker.call_of(method, room);
    }
    let tags = ALL_TAGS;
    maker.numbers = maker.random.chance(30);
    let class = match maker.numbers && maker.random.chance(40) {
        true => NUMBER,
        false => maker.random.below(table.classes.len() + 1) as u8,
    };
    maker.make(Want { class, tags }, room)
}

/// Fields one after the other, as far as types allow.
fn path(random: &mut Random, table: &Table, class: u8) -> Expr {
    let (mut expr, mut class) = (Expr::Param(0), class);
    for _ in 0..random.between(1, MAX_NESTING - 1) {
        let fields = fields(table, class);
        if fields.is_empty() {
            break;
        }
        let field = random.below(fields.len());
        expr = Expr::Field(field as u8, Box::new(expr));
        class = fields[field].class;
        if fields[field].tag != PLUS {
            break;
        }
    }
    expr
}

/// A text that earns 6 or 7.
pub fn ill_typed(random: &mut Random) -> Vec<u8> {
    let unknown = [Expr::This, Expr::Res, Expr::Param(1), Expr::Param(255)];
    if random.chance(20) {
        let mut table = table(random);
        table.main = unknown[random.below(unknown.len())].clone();
        return written(&table);
    }
    illtyped::text_like(random, table)
}

/// A text that earns one of refusals 1 to 5.
pub fn damaged(random: &mut Random) -> Vec<u8> {
    if random.chance(60) {
        return damaged::text_like(random, table);
    }
    loop {
        let table = table(random);
        if let Some(text) = other_main(random, table)
            && reading::read(&text).is_err()
        {
            return text;
        }
    }
}

/// Another type in the main frame, or another main beside it.
fn other_main(random: &mut Random, mut table: Table) -> Option<Vec<u8>> {
    let unknown = table.classes.len() as u8 + 1;
    let sound = written(&table);
    let input = table.input.as_mut()?;
    match random.below(6) {
        0 => input.tag = random.between(1, usize::from(MINUS)) as u8,
        1 => input.tag = *random.pick(&[4, 5, 0x40, 0xFF])?,
        2 => input.class = *random.pick(&[unknown, unknown + 1, 0x21, NUMBER, 0xFF])?,
        sort => {
            let mut frames = text::lines(&sound)?;
            let main = match sort {
                3 => vec![0x03, 0x45, 0x00, 0x00],
                _ => frames.last()?.clone(),
            };
            let place = random.below(frames.len() + 1);
            frames.insert(place, main);
            let mut text = Vec::new();
            frames.iter().for_each(|frame| push_line(&mut text, frame));
            return Some(text);
        }
    }
    writing::encode(&table)
}
