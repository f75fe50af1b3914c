//! The report of an outcome, written at the front of the lent buffer.

use super::arena::{Arena, Id, NO_CLASS, UNDETERMINED, number};
use crate::running::Stop;
use crate::syntax::NUMBER;
use crate::values::MAX_OBJECTS;

/// Writes the report and gives its length.
pub fn write(outcome: Result<Id, Stop>, arena: &Arena, buffer: &mut [u8]) -> usize {
    let mut lines = Lines { buffer, length: 0 };
    match outcome {
        Err(stop) => lines.push(&[0x07, stop as u8]),
        Ok(UNDETERMINED) => lines.push(&[0x06]),
        Ok(root) => match number(root) {
            Some(number) => {
                let [high, low] = number.to_be_bytes();
                lines.push(&[0x09, high, low]);
            }
            None => push_objects(&mut lines, arena, root),
        },
    }
    lines.length
}

/// Objects in the order met: root first, then fields in order, depth first.
fn push_objects(lines: &mut Lines, arena: &Arena, root: Id) {
    let mut met = Vec::with_capacity(MAX_OBJECTS);
    let mut todo = vec![root];
    while let Some(id) = todo.pop() {
        let node = arena.node(id);
        if node.class != NO_CLASS && !met.contains(&id) {
            met.push(id);
            todo.extend(node.fields[..usize::from(node.count)].iter().rev());
        }
    }
    for (number, &id) in met.iter().enumerate() {
        let node = arena.node(id);
        let mut line = [0; 16];
        line[..4].copy_from_slice(&[0x05, number as u8, node.class, node.count]);
        let mut length = 4;
        for &field in &node.fields[..usize::from(node.count)] {
            length += put_field(&mut line[length..], &met, field);
        }
        lines.push(&line[..length]);
    }
}

/// The bytes of a field, and how many there are.
fn put_field(line: &mut [u8], met: &[Id], field: Id) -> usize {
    if let Some(number) = number(field) {
        let [high, low] = number.to_be_bytes();
        line[..3].copy_from_slice(&[NUMBER, high, low]);
        return 3;
    }
    let number = met.iter().position(|&other| other == field);
    // A mark left open would be a fault of this engine.
    assert!(number.is_some() || field == UNDETERMINED);
    line[0] = number.map_or(0xFF, |number| number as u8);
    1
}

struct Lines<'a> {
    buffer: &'a mut [u8],
    length: usize,
}

impl Lines<'_> {
    fn push(&mut self, bytes: &[u8]) {
        const DIGITS: &[u8; 16] = b"0123456789ABCDEF";
        let line = &mut self.buffer[self.length..][..2 * bytes.len() + 1];
        for (pair, &byte) in line.chunks_exact_mut(2).zip(bytes) {
            pair[0] = DIGITS[usize::from(byte >> 4)];
            pair[1] = DIGITS[usize::from(byte & 15)];
        }
        line[2 * bytes.len()] = b'\n';
        self.length += line.len();
    }
}
