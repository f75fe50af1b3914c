//! Bodies as postfix code, made when a body is first run. What is stuck
//! whatever the values are is stuck in the code already.

use super::program::{Method, NONE, Program};

#[derive(Clone, Copy, Debug)]
pub enum Op {
    /// `this` is 0, then come the parameters, then `res` if there is one; in
    /// main, parameter 0 is 0.
    Local(u8),
    Field(u8),
    /// Field of a local.
    LocalField(u8, u8),
    /// Whether the receiver on top has the method; its arguments come next.
    Find(u8, u8),
    /// Column and count.
    Call(u8, u8),
    /// Class and count, which are the class's.
    New(u8, u8),
    Number(u16),
    /// Whether what is on top is a number; the next operand comes after it.
    Operand,
    /// Of two operands, the first of which is a number.
    Sum,
    Difference,
    /// Takes a number; goes on after so many ops if it is 0.
    IfZero(u16),
    /// Goes on after so many ops.
    Skip(u16),
    Stuck,
    Return,
}

/// Which body of a method.
#[derive(Clone, Copy, PartialEq, Eq)]
pub enum Side {
    Left,
    Right,
}

const NOT_YET: u32 = u32::MAX;

pub struct Code {
    pub ops: Vec<Op>,
    starts: Vec<[u32; 2]>,
}

impl Code {
    /// The code of main alone, which starts at 0.
    pub fn new(program: &Program) -> Code {
        let mut body = Body {
            program,
            ops: Vec::with_capacity(64),
            next: program.main,
            method: None,
            side: Side::Left,
        };
        body.whole();
        Code {
            ops: body.ops,
            starts: vec![[NOT_YET; 2]; program.methods.len()],
        }
    }

    /// Where a body starts.
    #[inline]
    pub fn start(&mut self, program: &Program, method: u8, side: Side) -> usize {
        let start = self.starts[usize::from(method)][side as usize];
        if start == NOT_YET {
            return self.add(program, method, side);
        }
        start as usize
    }

    #[cold]
    fn add(&mut self, program: &Program, number: u8, side: Side) -> usize {
        let method = &program.methods[usize::from(number)];
        let start = self.ops.len();
        let mut body = Body {
            program,
            ops: std::mem::take(&mut self.ops),
            next: match side {
                Side::Left => method.left,
                Side::Right => method.right,
            },
            method: Some(method),
            side,
        };
        body.whole();
        self.ops = body.ops;
        self.starts[usize::from(number)][side as usize] = start as u32;
        start
    }
}

/// A body being turned into code; main has no method.
struct Body<'a> {
    program: &'a Program,
    ops: Vec<Op>,
    next: usize,
    method: Option<&'a Method>,
    side: Side,
}

impl Body<'_> {
    fn whole(&mut self) {
        self.expr();
        self.ops.push(Op::Return);
    }

    fn byte(&mut self) -> u8 {
        self.next += 1;
        self.program.bytes[self.next - 1]
    }

    fn expr(&mut self) {
        match self.byte() {
            0x40 => self.local(self.method.map(|_| 0)),
            0x41 => self.local(match self.method {
                Some(method) if self.side == Side::Right => Some(method.params + 1),
                _ => None,
            }),
            0x42 => {
                let place = self.byte();
                self.local(match self.method {
                    Some(method) if place < method.params => Some(place + 1),
                    None if place == 0 => self.program.input.map(|_| 0),
                    _ => None,
                });
            }
            0x43 => self.field(),
            0x44 => self.call(),
            0x45 => self.new_object(),
            0x46 => {
                let number = u16::from_be_bytes([self.byte(), self.byte()]);
                self.ops.push(Op::Number(number));
            }
            0x47 => self.operation(Op::Sum),
            0x48 => self.operation(Op::Difference),
            _ => self.choose(),
        }
    }

    fn sign(&self) -> u8 {
        self.program.bytes[self.next]
    }

    /// Two operands and what is done with them. The first is asked whether it
    /// is a number before the second is evaluated, where that is not plain.
    fn operation(&mut self, op: Op) {
        let plain = matches!(self.sign(), 0x46..=0x48);
        self.expr();
        if !plain {
            self.ops.push(Op::Operand);
        }
        self.expr();
        self.ops.push(op);
    }

    /// The number, then both branches, of which one is left out.
    fn choose(&mut self) {
        self.expr();
        let asked = self.ops.len();
        self.ops.push(Op::IfZero(0));
        self.expr();
        let between = self.ops.len();
        self.ops.push(Op::Skip(0));
        self.expr();
        self.ops[asked] = Op::IfZero((between - asked) as u16);
        self.ops[between] = Op::Skip((self.ops.len() - between - 1) as u16);
    }

    fn local(&mut self, place: Option<u8>) {
        self.ops.push(place.map_or(Op::Stuck, Op::Local));
    }

    fn field(&mut self) {
        let field = self.byte();
        let variable = matches!(self.sign(), 0x40..=0x42);
        self.expr();
        if let Some(Op::Local(place)) = self.ops.last().copied()
            && variable
        {
            self.ops.pop();
            self.ops.push(Op::LocalField(place, field));
        } else {
            self.ops.push(Op::Field(field));
        }
    }

    /// The receiver is asked for the method before the arguments are
    /// evaluated; where they are variables or numbers nobody can tell, and it is
    /// left out.
    fn call(&mut self) {
        let column = self.program.columns[usize::from(self.byte())];
        let count = self.byte();
        self.expr();
        if column == NONE {
            self.ops.push(Op::Stuck);
        }
        let asked = self.ops.len();
        for _ in 0..count {
            self.expr();
        }
        let plain = |op: &Op| matches!(op, Op::Local(_) | Op::Number(_));
        if !self.ops[asked..].iter().all(plain) {
            self.ops.insert(asked, Op::Find(column, count));
        }
        self.ops.push(Op::Call(column, count));
    }

    /// A wrong count is stuck before the values; what follows is never run.
    fn new_object(&mut self) {
        let class = self.byte();
        let count = self.byte();
        if self.program.counts[usize::from(class)] != count {
            self.ops.push(Op::Stuck);
        }
        for _ in 0..count {
            self.expr();
        }
        self.ops.push(Op::New(class, count));
    }
}
