//! The class table: what a text that passes refusals 1 to 5 says.
//!
//! Plain data. A table can be built that no text reads into; the reader and
//! the writer decide which ones are sound, not these structs.

pub const PLUS: u8 = 0;
pub const PLUS_OPEN: u8 = 1;
pub const MINUS_OPEN: u8 = 2;
pub const MINUS: u8 = 3;

pub const MAX_CLASSES: usize = 32;
pub const MAX_METHODS: usize = 64;
pub const MAX_FIELDS: usize = 4;
pub const MAX_PARAMETERS: usize = 3;
pub const MAX_NESTING: usize = 6;

/// The class byte of whole numbers; it is no class of the table.
pub const NUMBER: u8 = 0xFE;

#[derive(Clone, Copy, Debug, PartialEq, Eq)]
pub struct Type {
    pub class: u8,
    pub tag: u8,
}

/// A class; its number is its place in the table, counted from 1.
#[derive(Clone, Debug, PartialEq, Eq)]
pub struct Class {
    pub parent: u8,
    /// Own fields only; inherited ones come before them.
    pub fields: Vec<Type>,
}

#[derive(Clone, Debug, PartialEq, Eq)]
pub struct Method {
    pub owner: u8,
    pub name: u8,
    pub first: Type,
    pub second: Type,
    pub params: Vec<Type>,
    pub left: Expr,
    pub right: Expr,
}

#[derive(Clone, Debug, PartialEq, Eq)]
pub enum Expr {
    This,
    Res,
    Param(u8),
    Field(u8, Box<Expr>),
    Call(u8, Box<Expr>, Vec<Expr>),
    New(u8, Vec<Expr>),
    Number(u16),
    Sum(Box<Expr>, Box<Expr>),
    /// 0 where it would be below 0.
    Difference(Box<Expr>, Box<Expr>),
    /// A number and two branches; the second is taken for 0.
    Choose(Box<Expr>, Box<Expr>, Box<Expr>),
}

#[derive(Clone, Debug, PartialEq, Eq)]
pub struct Table {
    pub classes: Vec<Class>,
    pub methods: Vec<Method>,
    /// The type of parameter 0 in an `04` main; an `03` main has none.
    pub input: Option<Type>,
    pub main: Expr,
}

impl Expr {
    /// The parts one level down, in the order they are written and evaluated.
    pub fn parts(&self) -> Vec<&Expr> {
        match self {
            Expr::This | Expr::Res | Expr::Param(_) | Expr::Number(_) => Vec::new(),
            Expr::Field(_, receiver) => vec![receiver],
            Expr::Call(_, receiver, arguments) => {
                let mut parts: Vec<&Expr> = vec![receiver];
                parts.extend(arguments);
                parts
            }
            Expr::New(_, values) => values.iter().collect(),
            Expr::Sum(left, right) | Expr::Difference(left, right) => vec![left, right],
            Expr::Choose(number, first, second) => vec![number, first, second],
        }
    }

    /// The same parts, to be changed.
    pub fn parts_mut(&mut self) -> Vec<&mut Expr> {
        match self {
            Expr::This | Expr::Res | Expr::Param(_) | Expr::Number(_) => Vec::new(),
            Expr::Field(_, receiver) => vec![receiver],
            Expr::Call(_, receiver, arguments) => {
                let mut parts: Vec<&mut Expr> = vec![receiver];
                parts.extend(arguments);
                parts
            }
            Expr::New(_, values) => values.iter_mut().collect(),
            Expr::Sum(left, right) | Expr::Difference(left, right) => vec![left, right],
            Expr::Choose(number, first, second) => vec![number, first, second],
        }
    }

    /// Whether the expression is at most `limit` deep.
    /// Stops at the limit, so that an oversized tree costs no stack.
    pub fn nests_within(&self, limit: usize) -> bool {
        limit > 0 && self.parts().iter().all(|part| part.nests_within(limit - 1))
    }
}
