//! The parts of a second text: refusal 14, in one pass over its characters.

use super::lines::{decode, digit};
use super::program::Program;
use crate::batch::{MAX_PARTS, NO_PART};
use crate::syntax::NUMBER;

#[derive(Clone, Copy)]
pub struct Part {
    pub class: u8,
    pub count: u8,
    /// Numbers of parts; where there is none, `NO_PART`, or `NUMBER` where a
    /// whole number is held.
    pub fields: [u8; 4],
    pub numbers: [u16; 4],
    /// Whether there is any.
    pub numbered: bool,
}

impl Part {
    pub fn fields(&self) -> &[u8] {
        &self.fields[..usize::from(self.count)]
    }
}

pub struct Parts {
    pub parts: [Part; MAX_PARTS],
    pub len: usize,
}

/// The parts of a text that is not empty, or nothing when it is no list of
/// parts. Every number is tested to be there once all lines are counted.
pub fn parts(program: &Program, text: &[u8]) -> Option<Parts> {
    let part = Part {
        class: 0,
        count: 0,
        fields: [NO_PART; 4],
        numbers: [0; 4],
        numbered: false,
    };
    let mut all = Parts {
        parts: [part; MAX_PARTS],
        len: 0,
    };
    let mut needed = 0;
    let mut rest = text;
    while let Some((front, after)) = rest.split_first_chunk::<8>() {
        let [first, number, class, count] = decode(*front)?;
        if first != 0x05 || usize::from(number) != all.len || !program.knows(class) {
            return None;
        }
        if count != program.counts[usize::from(class)] {
            return None;
        }
        let part = all.parts.get_mut(all.len)?;
        (part.class, part.count) = (class, count);
        rest = after;
        for place in 0..usize::from(count) {
            let field = byte(&mut rest)?;
            part.fields[place] = field;
            if field == NUMBER {
                part.numbered = true;
                part.numbers[place] = u16::from_be_bytes([byte(&mut rest)?, byte(&mut rest)?]);
            } else {
                // So many parts it takes to have this one; `NO_PART` takes none.
                needed = needed.max(field.wrapping_add(1));
            }
        }
        rest = rest.strip_prefix(b"\n")?;
        all.len += 1;
    }
    (rest.is_empty() && usize::from(needed) <= all.len).then_some(all)
}

/// The byte of the next two digits.
#[inline]
fn byte(text: &mut &[u8]) -> Option<u8> {
    let (&[high, low], after) = text.split_first_chunk::<2>()?;
    *text = after;
    Some(digit(high)? << 4 | digit(low)?)
}
