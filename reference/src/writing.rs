//! The writer: from a table to its one text, or refusal 8 or 9.

use crate::reading;
use crate::refusals::{Refusal, TEXT_LENGTH};
use crate::syntax::{Class, Expr, MAX_NESTING, Method, Table, Type};
use crate::text::push_line;

/// Writes a table's text at the front of the buffer and gives its length.
/// Nothing is written on a refusal; bytes after the text stay.
pub fn write(table: &Table, buffer: &mut [u8]) -> Result<usize, Refusal> {
    let text = text(table).ok_or(Refusal::Unwritable)?;
    if buffer.len() < TEXT_LENGTH {
        return Err(Refusal::TextBuffer);
    }
    buffer[..text.len()].copy_from_slice(&text);
    Ok(text.len())
}

/// The text that reads into a table, if there is one. A text is determined by
/// its table, so it is enough to encode the table and read it back.
pub fn text(table: &Table) -> Option<Vec<u8>> {
    let text = encode(table)?;
    (reading::read(&text).as_ref() == Ok(table)).then_some(text)
}

/// The lines of a table, sound or not, as far as its counts are bytes and its
/// expressions no deeper than the form allows. Refusals are not tested: the
/// tests and the generator want bad texts too.
pub fn encode(table: &Table) -> Option<Vec<u8>> {
    let mut text = Vec::new();
    for (place, class) in table.classes.iter().enumerate() {
        push_line(
            &mut text,
            &class_bytes(u8::try_from(place + 1).ok()?, class)?,
        );
    }
    for method in &table.methods {
        push_line(&mut text, &method_bytes(method)?);
    }
    push_line(&mut text, &main_bytes(table.input, &table.main)?);
    Some(text)
}

pub fn class_bytes(number: u8, class: &Class) -> Option<Vec<u8>> {
    let mut bytes = vec![0x01, number, class.parent];
    push_types(&mut bytes, &class.fields)?;
    Some(bytes)
}

pub fn method_bytes(method: &Method) -> Option<Vec<u8>> {
    let (first, second) = (method.first, method.second);
    let mut bytes = vec![0x02, method.owner, method.name];
    bytes.extend([first.class, first.tag, second.class, second.tag]);
    push_types(&mut bytes, &method.params)?;
    push_expr(&mut bytes, &method.left, MAX_NESTING)?;
    push_expr(&mut bytes, &method.right, MAX_NESTING)?;
    Some(bytes)
}

pub fn main_bytes(input: Option<Type>, main: &Expr) -> Option<Vec<u8>> {
    let mut bytes = match input {
        None => vec![0x03],
        Some(input) => vec![0x04, input.class, input.tag],
    };
    push_expr(&mut bytes, main, MAX_NESTING)?;
    Some(bytes)
}

fn push_types(bytes: &mut Vec<u8>, types: &[Type]) -> Option<()> {
    bytes.push(u8::try_from(types.len()).ok()?);
    bytes.extend(types.iter().flat_map(|type_| [type_.class, type_.tag]));
    Some(())
}

fn push_expr(bytes: &mut Vec<u8>, expr: &Expr, room: usize) -> Option<()> {
    let room = room.checked_sub(1)?;
    match expr {
        Expr::This => bytes.push(0x40),
        Expr::Res => bytes.push(0x41),
        Expr::Param(place) => bytes.extend([0x42, *place]),
        Expr::Field(field, _) => bytes.extend([0x43, *field]),
        Expr::Call(name, _, arguments) => {
            bytes.extend([0x44, *name, u8::try_from(arguments.len()).ok()?]);
        }
        Expr::New(class, values) => {
            bytes.extend([0x45, *class, u8::try_from(values.len()).ok()?]);
        }
        Expr::Number(number) => {
            let [high, low] = number.to_be_bytes();
            bytes.extend([0x46, high, low]);
        }
        Expr::Sum(..) => bytes.push(0x47),
        Expr::Difference(..) => bytes.push(0x48),
        Expr::Choose(..) => bytes.push(0x49),
    }
    for part in expr.parts() {
        push_expr(bytes, part, room)?;
    }
    Some(())
}
