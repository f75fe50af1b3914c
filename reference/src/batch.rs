//! The second text, which brings the value of an `04` main: its parts, refusal
//! 14 over all of them, refusal 15 over those that the root reaches, and their
//! value. Equal parts are made one in `values.rs`.

use crate::classes::{class_fits, fields, known};
use crate::refusals::Refusal;
use crate::syntax::{NUMBER, PLUS, Table, Type};
use crate::text;
use crate::values::{Object, Ref, Value, reached};

/// Most lines of a second text: `FE` and `FF` are numbers of no part.
pub const MAX_PARTS: usize = 254;
/// Longest second text: a part has at most 16 bytes, two digits a byte and an LF.
pub const SECOND_LENGTH: usize = MAX_PARTS * 33;

/// What a field holds in place of a part when it is undetermined.
pub const NO_PART: u8 = 0xFF;
const ROOT: Ref = Ref::Object(0);

/// The value that a second text gives to main, or refusal 14 or 15. An `03`
/// main is given none, and an empty second text counts as none.
pub fn input(table: &Table, second: &[u8]) -> Result<Option<Value>, Refusal> {
    match (table.input, second.is_empty()) {
        (None, true) => Ok(None),
        (Some(type_), false) => {
            let parts = parts(table, second).ok_or(Refusal::Parts)?;
            let value = value(table, type_, &parts).ok_or(Refusal::Places)?;
            Ok(Some(value))
        }
        _ => Err(Refusal::Parts),
    }
}

/// The parts of a second text, or nothing when it is no list of parts.
fn parts(table: &Table, second: &[u8]) -> Option<Vec<Object>> {
    let lines = text::lines(second)?;
    if lines.len() > MAX_PARTS {
        return None;
    }
    let numbered = lines.iter().enumerate();
    numbered
        .map(|(place, line)| part(table, line, place, lines.len()))
        .collect()
}

/// One line: `05`, its number, a class, that class's field count, the fields.
fn part(table: &Table, line: &[u8], place: usize, count: usize) -> Option<Object> {
    let &[0x05, number, class, field_count, ref held @ ..] = line else {
        return None;
    };
    let sound = usize::from(number) == place
        && known(table, class)
        && usize::from(field_count) == fields(table, class).len();
    let fields = held_in(held, count)?;
    let sound = sound && usize::from(field_count) == fields.len();
    sound.then_some(Object { class, fields })
}

/// What the bytes of all fields stand for where there are so many parts: a
/// part's number, `FF`, or `FE` with the two bytes of a number after it.
fn held_in(bytes: &[u8], count: usize) -> Option<Vec<Ref>> {
    let mut held = Vec::new();
    let mut bytes = bytes.iter().copied();
    while let Some(byte) = bytes.next() {
        let place = usize::from(byte);
        held.push(match byte {
            NO_PART => Ref::Undetermined,
            NUMBER => Ref::Number(u16::from_be_bytes([bytes.next()?, bytes.next()?])),
            _ if place < count => Ref::Object(place),
            _ => return None,
        });
    }
    Some(held)
}

/// The value of the reached parts, if each fits where it is held and no more
/// than 32 of them are distinct.
fn value(table: &Table, type_: Type, parts: &[Object]) -> Option<Value> {
    let in_place = |place: usize| {
        let held = parts[place].fields.iter();
        let types = fields(table, parts[place].class);
        held.zip(types)
            .all(|(&held, type_)| fits(table, parts, held, type_))
    };
    let all = fits(table, parts, ROOT, type_) && reached(parts, ROOT).into_iter().all(in_place);
    if !all {
        return None;
    }
    Value::of_graph(parts, ROOT)
}

/// Whether a place of this type may hold this.
fn fits(table: &Table, parts: &[Object], held: Ref, type_: Type) -> bool {
    match held {
        Ref::Object(place) => class_fits(table, parts[place].class, type_.class),
        Ref::Number(_) => type_.class == NUMBER,
        Ref::Undetermined | Ref::Mark(_) => type_.tag != PLUS,
    }
}
