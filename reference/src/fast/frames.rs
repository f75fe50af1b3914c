//! Frames: refusals 2 and 3 in one pass. What later refusals need is noted on
//! the way, so that a refusal 2 further down in the text still comes first.

use super::lines::Lines;
use super::program::Method;
use crate::syntax::{MAX_CLASSES, MAX_FIELDS, MAX_METHODS, MAX_NESTING, MAX_PARAMETERS, MINUS};

#[derive(Default)]
pub struct Frames {
    /// Where each class frame has its number.
    pub classes: Vec<usize>,
    pub methods: Vec<Method>,
    /// Where main's expression is, and where an `04` main has its type.
    pub main: Option<usize>,
    pub input: Option<usize>,
    pub ordered: bool,
    pub highest_new: u8,
}

/// Every frame's form; nothing when one earns refusal 2. A frame out of order
/// or over its number is read and only noted.
pub fn frames(lines: &Lines) -> Option<Frames> {
    let mut frames = Frames {
        ordered: true,
        ..Frames::default()
    };
    let mut start = 0;
    for &end in &lines.ends {
        let mut cursor = Cursor {
            bytes: &lines.bytes[..end],
            next: start + 1,
            highest_new: frames.highest_new,
        };
        frames.ordered &= frames.main.is_none();
        match lines.bytes[start] {
            0x01 => {
                cursor.next += 2;
                cursor.types(MAX_FIELDS)?;
                frames.ordered &= frames.methods.is_empty() && frames.classes.len() < MAX_CLASSES;
                frames.classes.push(start + 1);
            }
            0x02 => {
                frames.ordered &= frames.methods.len() < MAX_METHODS;
                frames.methods.push(cursor.method()?);
            }
            0x03 => {
                frames.main = Some(start + 1);
                cursor.expr()?;
            }
            0x04 => {
                frames.input = Some(start + 1);
                frames.main = Some(start + 3);
                cursor.type_()?;
                cursor.expr()?;
            }
            _ => return None,
        }
        if cursor.next != end {
            return None;
        }
        frames.highest_new = cursor.highest_new;
        start = end;
    }
    Some(frames)
}

/// One frame and how far it has been read; its end is the end of the bytes.
struct Cursor<'a> {
    bytes: &'a [u8],
    next: usize,
    highest_new: u8,
}

impl Cursor<'_> {
    #[inline]
    fn byte(&mut self) -> Option<u8> {
        let byte = *self.bytes.get(self.next)?;
        self.next += 1;
        Some(byte)
    }

    fn count(&mut self, limit: usize) -> Option<usize> {
        let count = usize::from(self.byte()?);
        (count <= limit).then_some(count)
    }

    fn type_(&mut self) -> Option<()> {
        let tag = *self.bytes.get(self.next + 1)?;
        self.next += 2;
        (tag <= MINUS).then_some(())
    }

    fn types(&mut self, limit: usize) -> Option<usize> {
        let count = self.count(limit)?;
        for _ in 0..count {
            self.type_()?;
        }
        Some(count)
    }

    fn method(&mut self) -> Option<Method> {
        let owner = self.byte()?;
        let name = self.byte()?;
        let types = self.next;
        self.type_()?;
        self.type_()?;
        let params = self.types(MAX_PARAMETERS)? as u8;
        let left = self.next;
        self.expr()?;
        let right = self.next;
        self.expr()?;
        Some(Method {
            owner,
            name,
            params,
            types,
            left,
            right,
        })
    }

    /// One expression. `left` has, for each level of nesting, how many parts
    /// are still to come there.
    fn expr(&mut self) -> Option<()> {
        let mut left = [0; MAX_NESTING + 1];
        let mut level = 1;
        left[1] = 1;
        loop {
            let parts = self.parts()?;
            left[level] -= 1;
            if parts > 0 {
                level += 1;
                *left.get_mut(level)? = parts;
            }
            while left[level] == 0 {
                level -= 1;
                if level == 0 {
                    return Some(());
                }
            }
        }
    }

    /// The front of an expression; gives the number of its parts.
    fn parts(&mut self) -> Option<usize> {
        match self.byte()? {
            0x40 | 0x41 => Some(0),
            0x42 => self.byte().map(|_| 0),
            0x43 => self.byte().map(|_| 1),
            0x44 => {
                self.byte()?;
                Some(1 + self.count(MAX_PARAMETERS)?)
            }
            0x45 => {
                self.highest_new = self.highest_new.max(self.byte()?);
                self.count(MAX_FIELDS)
            }
            0x46 => {
                self.byte()?;
                self.byte().map(|_| 0)
            }
            0x47 | 0x48 => Some(2),
            0x49 => Some(3),
            _ => None,
        }
    }
}
