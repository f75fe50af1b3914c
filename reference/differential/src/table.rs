//! The bytes of a class table by docs/TABLE.md: laid out from the reference engine's table, the text of such bytes, and where a
//! method is found in any bytes.

use baqolluy::{Found, TABLE_LENGTH};
use reference::classes;
use reference::reading;
use reference::syntax::{MAX_CLASSES, MAX_FIELDS, MAX_METHODS, Table, Type};
use reference::text::push_line;
use reference::writing::{main_bytes, method_bytes};

/// Class rows begin at 0.
pub const ROW: usize = 16;
pub const INDEX: usize = 528;
pub const METHODS: usize = 8_976;
const MAIN: usize = 25_360;
/// The bytes of a method's row, of main's, and of a class's part of the index.
pub const LONG: usize = 256;
/// The bytes of the type that stands before an `04` main's expression.
const INPUT: usize = 2;

/// The bytes of a table that was read.
pub fn layout(table: &Table) -> Vec<u8> {
    let mut bytes = vec![0; TABLE_LENGTH];
    bytes[11] = small(table.classes.len());
    bytes[12] = small(table.methods.len());
    for (place, class) in table.classes.iter().enumerate() {
        let number = small(place + 1);
        let row = ROW * (place + 1);
        bytes[row] = class.parent;
        bytes[row + 1] = small(classes::fields(table, number).len());
        bytes[row + 2] = small(class.fields.len());
        put_types(&mut bytes, row + 3, &class.fields);
    }
    for (number, method) in table.methods.iter().enumerate() {
        let index = INDEX + LONG * usize::from(method.owner) + usize::from(method.name);
        bytes[index] = small(number + 1);
        let line = method_bytes(method).expect("a table that was read has its lines");
        let right = main_bytes(None, &method.right).expect("and its expressions");
        // The right expression ends the line, and `main_bytes` has one byte in front of it.
        put_long(
            &mut bytes,
            METHODS + LONG * number,
            &line,
            line.len() - (right.len() - 1),
        );
    }
    let line = main_bytes(table.input, &table.main).expect("a table that was read has a main");
    let ahead = if table.input.is_some() { INPUT } else { 0 };
    put_long(&mut bytes, MAIN, &line, ahead);
    bytes
}

/// The text that reads into these bytes, if there is one: the lines that they hold, if the reader agrees.
pub fn text(bytes: &[u8]) -> Option<Vec<u8>> {
    let text = lines(bytes)?;
    let table = reading::read(&text).ok()?;
    (layout(&table) == bytes).then_some(text)
}

/// Where the index of any bytes has a method, from a class to parents with smaller numbers. A class above 32 has no row.
pub fn find(bytes: &[u8], class: u8, name: u8) -> Option<Found> {
    let mut class = usize::from(class);
    while class <= MAX_CLASSES {
        let entry = bytes[INDEX + LONG * class + usize::from(name)];
        if let Some(method) = entry.checked_sub(1) {
            let owner = small(class);
            return Some(Found { owner, method });
        }
        let parent = usize::from(bytes[ROW * class]);
        if parent >= class {
            return None;
        }
        class = parent;
    }
    None
}

fn lines(bytes: &[u8]) -> Option<Vec<u8>> {
    let (classes, methods) = (usize::from(bytes[11]), usize::from(bytes[12]));
    if classes > MAX_CLASSES || methods > MAX_METHODS {
        return None;
    }
    let mut text = Vec::new();
    for number in 1..=classes {
        let row = &bytes[ROW * number..ROW * (number + 1)];
        let own = usize::from(row[2]);
        if own > MAX_FIELDS {
            return None;
        }
        let head = [0x01, small(number), row[0], row[2]];
        push_line(&mut text, &[&head, &row[3..3 + 2 * own]].concat());
    }
    for number in 0..methods {
        push_line(&mut text, &long(bytes, METHODS + LONG * number, 0x02)?);
    }
    let first = if bytes[MAIN] == 0 { 0x03 } else { 0x04 };
    push_line(&mut text, &long(bytes, MAIN, first)?);
    Some(text)
}

/// The line in a row of 256 bytes, with its own first byte.
fn long(bytes: &[u8], at: usize, first: u8) -> Option<Vec<u8>> {
    let length = usize::from(bytes[at + LONG - 1]);
    let rest = bytes[at..at + length].get(1..)?;
    Some([&[first], rest].concat())
}

fn put_types(bytes: &mut [u8], at: usize, types: &[Type]) {
    for (place, type_) in types.iter().enumerate() {
        bytes[at + 2 * place] = type_.class;
        bytes[at + 2 * place + 1] = type_.tag;
    }
}

/// A line in a row of 256 bytes: `first` in place of its first byte, its length at the end.
fn put_long(bytes: &mut [u8], at: usize, line: &[u8], first: usize) {
    bytes[at] = small(first);
    bytes[at + 1..at + line.len()].copy_from_slice(&line[1..]);
    bytes[at + LONG - 1] = small(line.len());
}

fn small(number: usize) -> u8 {
    u8::try_from(number).expect("a byte")
}
