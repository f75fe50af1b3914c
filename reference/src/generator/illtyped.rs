//! Programs that pass 1 to 5 and have no type: a well typed one with a part
//! changed, in a method for refusal 6 or in main for refusal 7.

use super::random::Random;
use super::{numbers, typed};
use crate::reading;
use crate::refusals::Refusal;
use crate::syntax::{Expr, MAX_FIELDS, MAX_PARAMETERS, Method, NUMBER, Table};
use crate::typing;
use crate::writing;

/// A text that earns 6 or 7, either as often as the other.
pub fn text(random: &mut Random) -> Vec<u8> {
    text_like(random, typed::table)
}

/// The same, made of tables from this source.
pub fn text_like(random: &mut Random, draw: fn(&mut Random) -> Table) -> Vec<u8> {
    let wanted = if random.chance(50) {
        Refusal::Method
    } else {
        Refusal::Main
    };
    loop {
        let mut table = draw(random);
        for _ in 0..20 {
            change(random, &mut table, wanted);
            let Some(text) = writing::encode(&table) else {
                break;
            };
            match reading::read(&text) {
                Ok(table) if typing::check(&table) == Err(wanted) => return text,
                Ok(_) => {}
                Err(_) => break,
            }
        }
    }
}

fn change(random: &mut Random, table: &mut Table, wanted: Refusal) {
    let count = table.classes.len();
    if wanted == Refusal::Main {
        change_expr(random, count, &mut table.main);
        return;
    }
    let place = random.below(table.methods.len());
    let method = &mut table.methods[place];
    match random.below(4) {
        0 => change_types(random, count, method),
        1 => change_expr(random, count, &mut method.right),
        _ => change_expr(random, count, &mut method.left),
    }
}

/// A class of the table or that of numbers.
fn any_class(random: &mut Random, count: usize) -> u8 {
    if random.chance(25) {
        return NUMBER;
    }
    random.below(count + 1) as u8
}

fn change_types(random: &mut Random, count: usize, method: &mut Method) {
    match random.below(5) {
        0 => method.first.tag = 3 - method.first.tag.min(3),
        1 => method.second.tag = random.below(4) as u8,
        2 => method.first.class = any_class(random, count),
        3 => method.second.class = any_class(random, count),
        _ => {
            if let Some(param) = method.params.first_mut() {
                param.class = any_class(random, count);
            }
        }
    }
}

/// Changes the expression or, as often as not, one of its parts.
pub fn change_expr(random: &mut Random, count: usize, expr: &mut Expr) {
    let mut parts = expr.parts_mut();
    if !parts.is_empty() && random.chance(60) {
        let place = random.below(parts.len());
        return change_expr(random, count, parts.swap_remove(place));
    }
    change_here(random, count, expr);
}

fn change_here(random: &mut Random, count: usize, expr: &mut Expr) {
    let class = random.below(count + 1) as u8;
    match random.below(11) {
        0 => *expr = Expr::This,
        1 => *expr = Expr::Res,
        2 => *expr = Expr::Param(*random.pick(&[0, 0, 1, 2, 3, 255]).unwrap_or(&0)),
        3 => *expr = Expr::New(class, Vec::new()),
        4 => {
            let field = random.below(5) as u8;
            *expr = Expr::Field(field, Box::new(expr.clone()));
        }
        5 => *expr = numbers::literal(random),
        6 => {
            let other = Box::new(numbers::literal(random));
            let here = Box::new(expr.clone());
            *expr = match random.below(3) {
                0 => Expr::Sum(here, other),
                1 => Expr::Difference(other, here),
                _ => Expr::Sum(here.clone(), here),
            };
        }
        7 => {
            let number = Box::new(match random.chance(70) {
                true => numbers::literal(random),
                false => expr.clone(),
            });
            let here = Box::new(expr.clone());
            let other = Box::new(match random.chance(70) {
                true => Expr::New(class, Vec::new()),
                false => Expr::Res,
            });
            *expr = Expr::Choose(number, here, other);
        }
        _ => change_parts(random, class, expr),
    }
}

/// Keeps the form and changes a number or the count of parts.
fn change_parts(random: &mut Random, number: u8, expr: &mut Expr) {
    let shorter = random.chance(50);
    match expr {
        Expr::Field(field, _) => *field = number.wrapping_add(1),
        Expr::Call(name, _, _) if random.chance(30) => *name = name.wrapping_add(1),
        Expr::Call(_, _, arguments) => {
            resize(arguments, shorter, MAX_PARAMETERS);
        }
        Expr::New(class, _) if random.chance(30) => *class = number,
        Expr::New(_, values) => resize(values, shorter, MAX_FIELDS),
        _ => *expr = Expr::Res,
    }
}

fn resize(parts: &mut Vec<Expr>, shorter: bool, limit: usize) {
    if shorter {
        parts.pop();
    } else if parts.len() < limit {
        parts.push(Expr::New(0, Vec::new()));
    }
}
