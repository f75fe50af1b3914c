//! The typing rules over the bytes: refusals 6 and 7, or the type of main.

use super::arena::NO_CLASS;
use super::program::{Method, NONE, Program};
use crate::refusals::Refusal;
use crate::syntax::{MINUS, MINUS_OPEN, NUMBER, PLUS, PLUS_OPEN, Type};

/// Checks every method, then main, and gives main's type.
pub fn check(program: &Program) -> Result<Type, Refusal> {
    let typed = |method| method_typed(program, method).unwrap_or(false);
    if !program.methods.iter().all(typed) {
        return Err(Refusal::Method);
    }
    let mut main = Scope {
        program,
        next: program.main,
        this: None,
        res: None,
        params: u8::from(program.input.is_some()),
        param_types: program.input.unwrap_or(0),
        result: 0,
    };
    let type_ = main.type_of().ok_or(Refusal::Main)?;
    Ok(match type_.class {
        NO_CLASS => Type {
            class: NUMBER,
            ..type_
        },
        _ => type_,
    })
}

/// The type of a number.
const WHOLE: Type = Type {
    class: NO_CLASS,
    tag: PLUS,
};

fn method_typed(program: &Program, method: &Method) -> Option<bool> {
    let mut scope = Scope {
        program,
        next: method.left,
        this: Some(Type {
            class: method.owner,
            tag: PLUS,
        }),
        res: None,
        params: method.params,
        param_types: method.types + 5,
        result: 2,
    };
    let left = scope.type_of()?;
    scope.res = Some(Type {
        tag: MINUS_OPEN,
        ..left
    });
    let right = scope.type_of()?;
    let first = program.type_at(method.types);
    let second = program.type_at(method.types + 2);
    let settled = match left.tag {
        PLUS_OPEN => PLUS,
        MINUS_OPEN => MINUS,
        tag => tag,
    };
    let settled = Type {
        tag: settled,
        ..left
    };
    Some(
        program.fits(settled, first)
            && program.fits(right, second)
            && program.fits(first, second)
            && program.fits(left, second),
    )
}

/// An expression being read, and what it may name.
struct Scope<'a> {
    program: &'a Program,
    next: usize,
    this: Option<Type>,
    res: Option<Type>,
    params: u8,
    param_types: usize,
    /// Where, in a method's types, the result type of a call stands.
    result: usize,
}

fn is_open(type_: Type) -> bool {
    type_.tag == PLUS_OPEN || type_.tag == MINUS_OPEN
}

impl Scope<'_> {
    fn byte(&mut self) -> u8 {
        self.next += 1;
        self.program.bytes[self.next - 1]
    }

    /// The type of the expression that comes next, if it has one.
    fn type_of(&mut self) -> Option<Type> {
        match self.byte() {
            0x40 => self.this,
            0x41 => self.res,
            0x42 => {
                let place = self.byte();
                let types = self.param_types + 2 * usize::from(place);
                (place < self.params).then(|| self.program.type_at(types))
            }
            0x43 => {
                let field = self.byte();
                let class = usize::from(self.receiver()?);
                let count = self.program.counts[class];
                (field < count).then(|| self.program.fields[class][usize::from(field)])
            }
            0x44 => self.call(),
            0x45 => self.new_object(),
            0x46 => {
                self.next += 2;
                Some(WHOLE)
            }
            0x47 | 0x48 => {
                self.operand()?;
                self.operand()?;
                Some(WHOLE)
            }
            _ => self.choose(),
        }
    }

    /// A number of tag 00.
    fn operand(&mut self) -> Option<()> {
        (self.type_of()? == WHOLE).then_some(())
    }

    /// The wider of the two branches' types.
    fn choose(&mut self) -> Option<Type> {
        self.operand()?;
        let first = self.type_of()?;
        let second = self.type_of()?;
        if self.program.fits(first, second) {
            return Some(second);
        }
        self.program.fits(second, first).then_some(first)
    }

    /// The class of a receiver, which must have tag 00.
    fn receiver(&mut self) -> Option<u8> {
        let type_ = self.type_of()?;
        (type_.tag == PLUS).then_some(type_.class)
    }

    fn call(&mut self) -> Option<Type> {
        let program = self.program;
        let column = program.columns[usize::from(self.byte())];
        let count = self.byte();
        let class = self.receiver()?;
        if column == NONE || program.method(class, column) == NONE {
            return None;
        }
        let method = &program.methods[usize::from(program.method(class, column))];
        if method.params != count {
            return None;
        }
        for place in 0..usize::from(count) {
            let wanted = program.type_at(method.types + 5 + 2 * place);
            let given = self.type_of()?;
            if is_open(given) || !program.fits(given, wanted) {
                return None;
            }
        }
        Some(program.type_at(method.types + self.result))
    }

    fn new_object(&mut self) -> Option<Type> {
        let class = self.byte();
        let count = self.byte();
        let row = usize::from(class);
        if self.program.counts[row] != count {
            return None;
        }
        let mut tag = PLUS;
        for place in 0..usize::from(count) {
            let mut given = self.type_of()?;
            if is_open(given) {
                given.tag = PLUS;
                tag = PLUS_OPEN;
            }
            if !self.program.fits(given, self.program.fields[row][place]) {
                return None;
            }
        }
        Some(Type { class, tag })
    }
}
