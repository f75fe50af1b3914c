//! Parts of a value that fits its places, drawn for the classes of a table, and
//! their text. They are cut again in `cuts.rs`.

use super::super::numbers;
use super::super::random::Random;
use crate::batch::NO_PART;
use crate::classes::{class_fits, fields};
use crate::syntax::{MINUS, NUMBER, Table, Type};
use crate::text::push_line;
use crate::values::{Object, Ref};

/// The second text of these parts, in this order. Nothing is tested.
pub fn text(parts: &[Object]) -> Vec<u8> {
    let mut text = Vec::new();
    for (number, part) in parts.iter().enumerate() {
        push_line(&mut text, &line(number, part));
    }
    text
}

/// The bytes of one part.
pub fn line(number: usize, part: &Object) -> Vec<u8> {
    let count = part.fields.len() as u8;
    let mut line = vec![0x05, number as u8, part.class, count];
    for &field in &part.fields {
        match field {
            Ref::Object(place) => line.push(place as u8),
            Ref::Undetermined | Ref::Mark(_) => line.push(NO_PART),
            Ref::Number(number) => {
                let [high, low] = number.to_be_bytes();
                line.extend([NUMBER, high, low]);
            }
        }
    }
    line
}

/// The classes at or below one.
pub fn below(table: &Table, class: u8) -> Vec<u8> {
    let all = 0..=table.classes.len() as u8;
    all.filter(|&one| class_fits(table, one, class)).collect()
}

/// Parts that fit their places; the first is the root, of a class at or below
/// this one. There may be more than 32 distinct ones.
pub fn graph(random: &mut Random, table: &Table, class: u8) -> Vec<Object> {
    let wanted = match random.below(10) {
        0..4 => random.between(1, 4),
        4..7 => random.between(5, 12),
        _ => random.between(13, 33),
    };
    let mut draw = Draw {
        random,
        table,
        wanted,
        parts: Vec::new(),
    };
    draw.part(class);
    let mut next = 0;
    while next < draw.parts.len() {
        for type_ in fields(table, draw.parts[next].class) {
            let held = draw.held(type_);
            draw.parts[next].fields.push(held);
        }
        next += 1;
    }
    draw.parts
}

/// A graph under construction: parts get their fields one after the other.
struct Draw<'a> {
    random: &'a mut Random,
    table: &'a Table,
    wanted: usize,
    parts: Vec<Object>,
}

impl Draw<'_> {
    /// Adds a part of a class at or below this one. Classes with fields are
    /// drawn more often: the others end the graph.
    fn part(&mut self, class: u8) -> usize {
        let mut below = below(self.table, class);
        let with_fields = |class: &u8| !fields(self.table, *class).is_empty();
        if self.parts.len() < self.wanted && self.random.chance(70) && below.iter().any(with_fields)
        {
            below.retain(with_fields);
        }
        let class = below[self.random.below(below.len())];
        let fields = Vec::new();
        self.parts.push(Object { class, fields });
        self.parts.len() - 1
    }

    /// What a field of this type holds: a new part while more are wanted,
    /// mostly; else one that fits, if there is any.
    fn held(&mut self, type_: Type) -> Ref {
        if type_.tag == MINUS && self.random.chance(25) {
            return Ref::Undetermined;
        }
        if type_.class == NUMBER {
            return Ref::Number(numbers::draw(self.random));
        }
        let places = 0..self.parts.len();
        let fits = |&place: &usize| class_fits(self.table, self.parts[place].class, type_.class);
        let fitting: Vec<usize> = places.filter(fits).collect();
        let more = self.parts.len() < self.wanted && self.random.chance(70);
        match self.random.pick(&fitting) {
            Some(&place) if !more => Ref::Object(place),
            _ => Ref::Object(self.part(type_.class)),
        }
    }
}
