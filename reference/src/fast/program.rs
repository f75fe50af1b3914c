//! A text that passed refusals 1 to 5, as tables: fits, fields and methods
//! are looked up, never searched. Expressions stay in the bytes of the text.

use super::arena::NO_CLASS;
use crate::syntax::{MAX_CLASSES, NUMBER, Type};

/// In place of a method or a name that is not there.
pub const NONE: u8 = 0xFF;
/// The classes with Object, and one without anything after them, which is also
/// the class of numbers: it fits itself only.
pub const ROWS: usize = MAX_CLASSES + 2;
const _: () = assert!(NO_CLASS as usize == ROWS - 1);

/// Places are those of bytes.
#[derive(Clone, Copy)]
pub struct Method {
    pub owner: u8,
    pub name: u8,
    pub params: u8,
    /// First result type, second result type, count and parameters.
    pub types: usize,
    pub left: usize,
    pub right: usize,
}

pub struct Program {
    pub bytes: Vec<u8>,
    /// Every class with all its fields, inherited ones first.
    pub fields: [[Type; 4]; ROWS],
    pub counts: [u8; ROWS],
    /// Bit d of row c: c fits d.
    pub fits: [u64; ROWS],
    pub methods: Vec<Method>,
    /// The column of each name that some method has.
    pub columns: [u8; 256],
    pub width: usize,
    /// The method of a class, its own or the nearest above it, by column.
    pub found: Vec<u8>,
    /// The place of the type of an `04` main's parameter.
    pub input: Option<usize>,
    pub main: usize,
}

impl Program {
    /// Whether there is a class of this number.
    #[inline]
    pub fn knows(&self, class: u8) -> bool {
        class < NO_CLASS && self.fits[usize::from(class)] != 0
    }

    /// The type written at a place of a program that passed rule 4; `FE` is
    /// read as the class without anything.
    #[inline]
    pub fn type_at(&self, place: usize) -> Type {
        let class = match self.bytes[place] {
            NUMBER => NO_CLASS,
            class => class,
        };
        let tag = self.bytes[place + 1];
        Type { class, tag }
    }

    /// The method of a class in a column, or `NONE`.
    #[inline]
    pub fn method(&self, class: u8, column: u8) -> u8 {
        self.found[usize::from(class) * self.width + usize::from(column)]
    }

    #[inline]
    pub fn fits(&self, type_: Type, wanted: Type) -> bool {
        self.fits[usize::from(type_.class)] >> wanted.class & 1 == 1 && type_.tag <= wanted.tag
    }
}
