//! The typing rules: refusals 6 and 7, or the type of main.
//! No inference; every type is declared or follows from the parts.

use crate::classes::{self, fits};
use crate::refusals::Refusal;
use crate::syntax::{Expr, MINUS, MINUS_OPEN, Method, NUMBER, PLUS, PLUS_OPEN, Table, Type};

/// Checks every method, then main, and gives main's type.
pub fn check(table: &Table) -> Result<Type, Refusal> {
    if !table
        .methods
        .iter()
        .all(|method| method_typed(table, method))
    {
        return Err(Refusal::Method);
    }
    type_of(&Scope::main(table), &table.main).ok_or(Refusal::Main)
}

/// What an expression may name, and which result type its calls have.
pub struct Scope<'a> {
    pub table: &'a Table,
    pub this: Option<Type>,
    pub res: Option<Type>,
    pub params: &'a [Type],
    pub in_main: bool,
}

impl<'a> Scope<'a> {
    /// Parameter 0 is all that a main may name, and only an `04` main.
    pub fn main(table: &'a Table) -> Self {
        Scope {
            table,
            this: None,
            res: None,
            params: table.input.as_slice(),
            in_main: true,
        }
    }

    /// The scope of a left side; a right side adds `res` to it.
    pub fn body(table: &'a Table, owner: u8, params: &'a [Type]) -> Self {
        let this = Type {
            class: owner,
            tag: PLUS,
        };
        Scope {
            table,
            this: Some(this),
            res: None,
            params,
            in_main: false,
        }
    }
}

/// The type `res` has on the right of a left side of type `left`.
pub fn res_type(left: Type) -> Type {
    Type {
        class: left.class,
        tag: MINUS_OPEN,
    }
}

/// The types of a method's left and right sides, if both have one.
pub fn sides(table: &Table, method: &Method) -> Option<(Type, Type)> {
    let mut scope = Scope::body(table, method.owner, &method.params);
    let left = type_of(&scope, &method.left)?;
    scope.res = Some(res_type(left));
    Some((left, type_of(&scope, &method.right)?))
}

pub fn method_typed(table: &Table, method: &Method) -> bool {
    let Some((left, right)) = sides(table, method) else {
        return false;
    };
    // The last condition is document 01's own: the question mark of the left
    // type is not stripped before it meets the second result.
    fits(table, settled(left), method.first)
        && fits(table, right, method.second)
        && fits(table, method.first, method.second)
        && fits(table, left, method.second)
}

/// An open tag as it will be once the call is closed.
fn settled(type_: Type) -> Type {
    let tag = match type_.tag {
        PLUS_OPEN => PLUS,
        MINUS_OPEN => MINUS,
        tag => tag,
    };
    Type { tag, ..type_ }
}

fn is_closed(type_: Type) -> bool {
    type_.tag == PLUS || type_.tag == MINUS
}

/// The type of an expression, if it has one.
pub fn type_of(scope: &Scope, expr: &Expr) -> Option<Type> {
    match expr {
        Expr::This => scope.this,
        Expr::Res => scope.res,
        Expr::Param(place) => scope.params.get(usize::from(*place)).copied(),
        Expr::Field(field, receiver) => {
            let class = receiver_class(scope, receiver)?;
            let fields = classes::fields(scope.table, class);
            fields.get(usize::from(*field)).copied()
        }
        Expr::Call(name, receiver, arguments) => call_type(scope, *name, receiver, arguments),
        Expr::New(class, values) => new_type(scope, *class, values),
        Expr::Number(_) => Some(WHOLE),
        Expr::Sum(left, right) | Expr::Difference(left, right) => {
            operand(scope, left)?;
            operand(scope, right)?;
            Some(WHOLE)
        }
        Expr::Choose(number, first, second) => {
            operand(scope, number)?;
            wider(scope, type_of(scope, first)?, type_of(scope, second)?)
        }
    }
}

/// The type of a number.
const WHOLE: Type = Type {
    class: NUMBER,
    tag: PLUS,
};

/// An operand is a number of tag 00.
fn operand(scope: &Scope, expr: &Expr) -> Option<()> {
    (type_of(scope, expr)? == WHOLE).then_some(())
}

/// The one of two types that the other fits.
fn wider(scope: &Scope, one: Type, two: Type) -> Option<Type> {
    if fits(scope.table, one, two) {
        Some(two)
    } else {
        fits(scope.table, two, one).then_some(one)
    }
}

/// The class of a receiver, which must have tag 00.
fn receiver_class(scope: &Scope, receiver: &Expr) -> Option<u8> {
    let type_ = type_of(scope, receiver)?;
    (type_.tag == PLUS).then_some(type_.class)
}

fn types_of(scope: &Scope, exprs: &[Expr]) -> Option<Vec<Type>> {
    exprs.iter().map(|expr| type_of(scope, expr)).collect()
}

fn call_type(scope: &Scope, name: u8, receiver: &Expr, arguments: &[Expr]) -> Option<Type> {
    let class = receiver_class(scope, receiver)?;
    let method = classes::find(scope.table, class, name)?.method;
    let given = types_of(scope, arguments)?;
    let agree = given.len() == method.params.len()
        && given
            .iter()
            .zip(&method.params)
            .all(|(&given, &wanted)| is_closed(given) && fits(scope.table, given, wanted));
    let result = if scope.in_main {
        method.first
    } else {
        method.second
    };
    agree.then_some(result)
}

fn new_type(scope: &Scope, class: u8, values: &[Expr]) -> Option<Type> {
    let fields = classes::fields(scope.table, class);
    let given = types_of(scope, values)?;
    let agree = given.len() == fields.len()
        && given.iter().zip(&fields).all(|(&given, &field)| {
            // A closed tag is kept; an open one is read as 00 for the fit.
            let tag = if is_closed(given) { given.tag } else { PLUS };
            fits(scope.table, Type { tag, ..given }, field)
        });
    let tag = if given.iter().all(|&given| is_closed(given)) {
        PLUS
    } else {
        PLUS_OPEN
    };
    agree.then_some(Type { class, tag })
}
