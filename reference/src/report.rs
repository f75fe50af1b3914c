//! The report of an outcome: numbering by a walk from the root, and its lines.

use crate::running::Outcome;
use crate::syntax::NUMBER;
use crate::text::push_line;
use crate::values::{Ref, Value};

/// The whole text of a report.
pub fn report(outcome: &Outcome) -> Vec<u8> {
    let mut text = Vec::new();
    match outcome {
        Err(stop) => push_line(&mut text, &[0x07, *stop as u8]),
        Ok(value) => push_value(&mut text, value),
    }
    text
}

fn push_value(text: &mut Vec<u8>, value: &Value) {
    match value.root() {
        Ref::Undetermined => return push_line(text, &[0x06]),
        Ref::Number(number) => {
            let [high, low] = number.to_be_bytes();
            return push_line(text, &[0x09, high, low]);
        }
        Ref::Object(_) | Ref::Mark(_) => {}
    }
    let objects = in_order_met(value);
    for (number, &place) in objects.iter().enumerate() {
        let object = value.object(place);
        let mut line = vec![0x05, number as u8, object.class, object.fields.len() as u8];
        let fields = object.fields.iter();
        line.extend(fields.flat_map(|&field| field_bytes(value, &objects, field)));
        push_line(text, &line);
    }
}

/// A finished run leaves no open mark in its value; one that did is a fault
/// of this engine and must not pass for undetermined.
fn field_bytes(value: &Value, objects: &[usize], field: Ref) -> Vec<u8> {
    match field {
        Ref::Object(_) => {
            let number = number_of(value, objects, field);
            vec![number.expect("a field leads to an object met") as u8]
        }
        Ref::Undetermined => vec![0xFF],
        Ref::Number(number) => {
            let [high, low] = number.to_be_bytes();
            vec![NUMBER, high, low]
        }
        Ref::Mark(_) => panic!("an open mark in a finished value"),
    }
}

/// One place for each distinct object, root first, then fields in order,
/// depth first. The order of building plays no part.
pub fn in_order_met(value: &Value) -> Vec<usize> {
    let mut objects = Vec::new();
    let mut todo = vec![value.root()];
    while let Some(reference) = todo.pop() {
        let Ref::Object(place) = reference else {
            continue;
        };
        if number_of(value, &objects, reference).is_none() {
            objects.push(place);
            // Last field pushed first, so that the first is met first.
            todo.extend(value.object(place).fields.iter().rev());
        }
    }
    objects
}

/// The number of the object a reference leads to; a leaf has none.
pub fn number_of(value: &Value, objects: &[usize], reference: Ref) -> Option<usize> {
    objects
        .iter()
        .position(|&place| value.same(Ref::Object(place), reference))
}
