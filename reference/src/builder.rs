//! A small assembler: programs written as Rust calls, turned into tables and
//! texts. It checks nothing; the writer and the reader do.

use crate::syntax::{Class, Expr, MINUS, MINUS_OPEN, Method, NUMBER, PLUS, PLUS_OPEN, Table, Type};
use crate::writing;

pub fn plus(class: u8) -> Type {
    Type { class, tag: PLUS }
}

pub fn plus_open(class: u8) -> Type {
    Type {
        class,
        tag: PLUS_OPEN,
    }
}

pub fn minus_open(class: u8) -> Type {
    Type {
        class,
        tag: MINUS_OPEN,
    }
}

pub fn minus(class: u8) -> Type {
    Type { class, tag: MINUS }
}

/// The type of a number.
pub fn whole() -> Type {
    plus(NUMBER)
}

pub fn this() -> Expr {
    Expr::This
}

pub fn res() -> Expr {
    Expr::Res
}

pub fn param(place: u8) -> Expr {
    Expr::Param(place)
}

pub fn field(field: u8, receiver: Expr) -> Expr {
    Expr::Field(field, Box::new(receiver))
}

pub fn call<const N: usize>(name: u8, receiver: Expr, arguments: [Expr; N]) -> Expr {
    Expr::Call(name, Box::new(receiver), arguments.into())
}

pub fn new<const N: usize>(class: u8, values: [Expr; N]) -> Expr {
    Expr::New(class, values.into())
}

pub fn number(number: u16) -> Expr {
    Expr::Number(number)
}

pub fn sum(left: Expr, right: Expr) -> Expr {
    Expr::Sum(Box::new(left), Box::new(right))
}

pub fn difference(left: Expr, right: Expr) -> Expr {
    Expr::Difference(Box::new(left), Box::new(right))
}

pub fn choose(number: Expr, first: Expr, second: Expr) -> Expr {
    Expr::Choose(Box::new(number), Box::new(first), Box::new(second))
}

/// A program under construction.
#[derive(Clone, Debug, Default)]
pub struct Program {
    classes: Vec<Class>,
    methods: Vec<Method>,
}

impl Program {
    pub fn start() -> Program {
        Program::default()
    }

    /// Adds a class with its own fields and gives its number.
    pub fn class(&mut self, parent: u8, fields: &[Type]) -> u8 {
        let fields = fields.to_vec();
        self.classes.push(Class { parent, fields });
        self.classes.len() as u8
    }

    /// Adds a method: owner and name, first and second result, parameters,
    /// left and right expression.
    pub fn method(
        &mut self,
        (owner, name): (u8, u8),
        (first, second): (Type, Type),
        params: &[Type],
        (left, right): (Expr, Expr),
    ) {
        self.methods.push(Method {
            owner,
            name,
            first,
            second,
            params: params.to_vec(),
            left,
            right,
        });
    }

    pub fn table(&self, main: Expr) -> Table {
        Table {
            classes: self.classes.clone(),
            methods: self.methods.clone(),
            input: None,
            main,
        }
    }

    /// The same with an `04` main, whose parameter has this class.
    pub fn batch_table(&self, class: u8, main: Expr) -> Table {
        Table {
            input: Some(plus(class)),
            ..self.table(main)
        }
    }

    /// The text of the program with this main. Panics when the table has
    /// none: a program written here is meant to be one.
    pub fn text(&self, main: Expr) -> Vec<u8> {
        writing::text(&self.table(main)).expect("a table with a text")
    }

    /// The text with an `04` main.
    pub fn batch_text(&self, class: u8, main: Expr) -> Vec<u8> {
        writing::text(&self.batch_table(class, main)).expect("a table with a text")
    }
}
