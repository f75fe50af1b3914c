//! Parts that earn 15: a sound value with a part or a number that does not fit
//! its place, a plus place without anything, or one object too many.

use super::super::numbers;
use super::super::random::Random;
use super::cuts::cut;
use super::flaws::Flaw;
use super::parts::{graph, text};
use super::{Batch, written};
use crate::batch::MAX_PARTS;
use crate::classes::{class_fits, fields};
use crate::syntax::{Expr, MINUS, NUMBER, PLUS, Table, Type};
use crate::values::{MAX_OBJECTS, Object, Ref, reached};

/// Two texts with this flaw, if the table and the parts have room for it.
pub fn batch(
    flaw: Flaw,
    random: &mut Random,
    mut table: Table,
    mut parts: Vec<Object>,
) -> Option<Batch> {
    match flaw {
        Flaw::Root => {
            let other = misfit_class(random, &table, table.input?.class)?;
            parts = single(random, &table, other)?;
        }
        Flaw::Held => {
            let (place, field, type_) = held(random, &table, &parts, |_| true)?;
            let other = misfit_class(random, &table, type_.class)?;
            let shift = parts.len();
            let added = single(random, &table, other)?;
            parts.extend(added.into_iter().map(|part| shifted(part, shift)));
            parts[place].fields[field] = Ref::Object(shift);
        }
        Flaw::HeldNumber => {
            let object = |type_: Type| type_.class != NUMBER;
            let (place, field, _) = held(random, &table, &parts, object)?;
            parts[place].fields[field] = Ref::Number(numbers::draw(random));
        }
        Flaw::Plus => {
            let (place, field, _) = held(random, &table, &parts, |type_| type_.tag == PLUS)?;
            parts[place].fields[field] = Ref::Undetermined;
        }
        _ => {
            let class = chain_class(random, &table)?;
            table.input = Some(Type { class, tag: PLUS });
            table.main = Expr::Param(0);
            parts = chain(random, &table, class)?;
        }
    }
    if parts.len() > MAX_PARTS {
        return None;
    }
    let second = text(&cut(random, &table, &parts));
    let text = written(&table);
    Some(Batch { text, second })
}

/// A class that does not fit another.
fn misfit_class(random: &mut Random, table: &Table, wanted: u8) -> Option<u8> {
    let all = 0..=table.classes.len() as u8;
    let others: Vec<u8> = all
        .filter(|&class| !class_fits(table, class, wanted))
        .collect();
    random.pick(&others).copied()
}

/// Parts whose root is of just this class.
fn single(random: &mut Random, table: &Table, class: u8) -> Option<Vec<Object>> {
    let parts = graph(random, table, class);
    (parts[0].class == class).then_some(parts)
}

fn shifted(part: Object, shift: usize) -> Object {
    let moved = |reference: &Ref| match *reference {
        Ref::Object(place) => Ref::Object(place + shift),
        other => other,
    };
    Object {
        class: part.class,
        fields: part.fields.iter().map(moved).collect(),
    }
}

/// A reached part, a field of it, and the field's type, which is as asked.
fn held(
    random: &mut Random,
    table: &Table,
    parts: &[Object],
    asked: impl Fn(Type) -> bool,
) -> Option<(usize, usize, Type)> {
    let mut places = Vec::new();
    for place in reached(parts, Ref::Object(0)) {
        let types = fields(table, parts[place].class).into_iter().enumerate();
        let types = types.filter(|&(_, type_)| asked(type_));
        places.extend(types.map(|(field, type_)| (place, field, type_)));
    }
    random.pick(&places).copied()
}

/// A class with a field that can hold an object of it.
fn chain_class(random: &mut Random, table: &Table) -> Option<u8> {
    let all = 1..=table.classes.len() as u8;
    let holds = |class: &u8| chain_field(table, *class).is_some();
    let classes: Vec<u8> = all.filter(holds).collect();
    random.pick(&classes).copied()
}

fn chain_field(table: &Table, class: u8) -> Option<usize> {
    let fields = fields(table, class);
    fields
        .iter()
        .position(|field| class_fits(table, class, field.class))
}

/// A chain of just over 32 objects of a class, and what its end leads to. The
/// last link leads to something else, so that no two of them are equal.
fn chain(random: &mut Random, table: &Table, class: u8) -> Option<Vec<Object>> {
    let field = chain_field(table, class)?;
    let type_ = fields(table, class)[field];
    let links = random.between(MAX_OBJECTS + 1, MAX_OBJECTS + 4);
    let mut last = single(random, table, class)?;
    let end = match type_.tag == MINUS {
        true => Ref::Undetermined,
        false => {
            let ends = graph(random, table, type_.class);
            if ends[0].class == class {
                return None;
            }
            let shift = last.len();
            last.extend(ends.into_iter().map(|part| shifted(part, shift)));
            Ref::Object(shift)
        }
    };
    last[0].fields[field] = end;
    let mut parts = last;
    for _ in 1..links {
        let mut link = parts[0].clone();
        link.fields[field] = Ref::Object(parts.len());
        let before = std::mem::replace(&mut parts[0], link);
        parts.push(before);
    }
    Some(parts)
}
