//! Evaluation of postfix code over ids. Receiver and arguments are left on
//! the stack where they were evaluated: they are the locals of the body.

use super::arena::{Arena, Id, mark, number, number_id};
use super::code::{Code, Op, Side};
use super::program::{NONE, Program};
use crate::running::{MAX_DEPTH, Stop};

/// Runs main on its input, if it has one, which is in the arena: its value or
/// why there is none, the values, the fuel left.
pub fn run(
    program: &Program,
    arena: Arena,
    input: Option<Id>,
    fuel: u16,
) -> (Result<Id, Stop>, Arena, u16) {
    let mut stack = Vec::with_capacity(256);
    stack.extend(input);
    let mut run = Run {
        program,
        code: Code::new(program),
        arena,
        stack,
        callers: [START; MAX_DEPTH],
        depth: 0,
        keys: [0; MAX_DEPTH],
        bases: [0; MAX_DEPTH],
        open: 0,
        next: 0,
        base: 0,
        side: Side::Left,
        fuel,
    };
    let outcome = run.whole();
    (outcome, run.arena, run.fuel)
}

/// Where to go on after a call.
#[derive(Clone, Copy)]
struct Caller {
    next: u32,
    base: u32,
    side: Side,
}

const START: Caller = Caller {
    next: 0,
    base: 0,
    side: Side::Left,
};

struct Run<'a> {
    program: &'a Program,
    code: Code,
    arena: Arena,
    stack: Vec<Id>,
    /// One for each of the `depth` open calls.
    callers: [Caller; MAX_DEPTH],
    depth: usize,
    /// The `open` left-side calls: receiver and column, and where on the stack
    /// the receiver stands, with the arguments after it.
    keys: [u64; MAX_DEPTH],
    bases: [u32; MAX_DEPTH],
    open: usize,
    next: usize,
    /// Where the locals of the body stand, and which side it is.
    base: usize,
    side: Side,
    fuel: u16,
}

impl Run<'_> {
    fn whole(&mut self) -> Result<Id, Stop> {
        loop {
            let op = self.code.ops[self.next];
            self.next += 1;
            match op {
                Op::Local(place) => {
                    let value = self.stack[self.base + usize::from(place)];
                    self.stack.push(value);
                }
                Op::LocalField(place, field) => {
                    let value = self.stack[self.base + usize::from(place)];
                    let value = self.field(value, field)?;
                    self.stack.push(value);
                }
                Op::Field(field) => {
                    let value = self.pop();
                    let value = self.field(value, field)?;
                    self.stack.push(value);
                }
                Op::Find(column, count) => {
                    let receiver = self.stack[self.stack.len() - 1];
                    self.method(receiver, column, count)?;
                }
                Op::Call(column, count) => self.call(column, count)?,
                Op::New(class, count) => self.new_object(class, count)?,
                Op::Number(number) => self.stack.push(number_id(number)),
                Op::Operand => {
                    let top = self.stack[self.stack.len() - 1];
                    number(top).ok_or(Stop::Stuck)?;
                }
                Op::Sum => {
                    let (left, right) = self.operands()?;
                    let sum = left.checked_add(right).ok_or(Stop::SumTooLarge)?;
                    self.stack.push(number_id(sum));
                }
                Op::Difference => {
                    let (left, right) = self.operands()?;
                    self.stack.push(number_id(left.saturating_sub(right)));
                }
                Op::IfZero(ops) => {
                    let chosen = number(self.pop()).ok_or(Stop::Stuck)?;
                    if chosen == 0 {
                        self.next += usize::from(ops);
                    }
                }
                Op::Skip(ops) => self.next += usize::from(ops),
                Op::Stuck => return Err(Stop::Stuck),
                Op::Return => {
                    if let Some(value) = self.answer() {
                        return Ok(value);
                    }
                }
            }
        }
    }

    #[inline]
    fn pop(&mut self) -> Id {
        self.stack.pop().expect("code leaves what it takes")
    }

    #[inline]
    fn operands(&mut self) -> Result<(u16, u16), Stop> {
        let right = number(self.pop()).ok_or(Stop::Stuck)?;
        let left = number(self.pop()).ok_or(Stop::Stuck)?;
        Ok((left, right))
    }

    #[inline]
    fn field(&self, value: Id, field: u8) -> Result<Id, Stop> {
        let node = self.arena.node(value);
        if field >= node.count {
            return Err(Stop::Stuck);
        }
        Ok(node.fields[usize::from(field)])
    }

    #[inline]
    fn method(&self, receiver: Id, column: u8, count: u8) -> Result<u8, Stop> {
        let class = self.arena.node(receiver).class;
        let method = self.program.method(class, column);
        if method == NONE || self.program.methods[usize::from(method)].params != count {
            return Err(Stop::Stuck);
        }
        Ok(method)
    }

    #[inline]
    fn new_object(&mut self, class: u8, count: u8) -> Result<(), Stop> {
        if count == 0 {
            let value = self.arena.bare(class);
            self.stack.push(value);
            return Ok(());
        }
        let first = self.stack.len() - usize::from(count);
        let made = self.arena.make(class, &self.stack[first..]);
        self.stack[first] = made.ok_or(Stop::TooLarge)?;
        self.stack.truncate(first + 1);
        Ok(())
    }

    #[inline]
    fn call(&mut self, column: u8, count: u8) -> Result<(), Stop> {
        let base = self.stack.len() - 1 - usize::from(count);
        let receiver = self.stack[base];
        let method = self.method(receiver, column, count)?;
        // The unit is spent before the depth is tested.
        self.fuel = self.fuel.checked_sub(1).ok_or(Stop::OutOfFuel)?;
        if self.depth >= MAX_DEPTH {
            return Err(Stop::TooDeep);
        }
        self.callers[self.depth] = Caller {
            next: self.next as u32,
            base: self.base as u32,
            side: self.side,
        };
        self.depth += 1;
        self.base = base;
        let key = u64::from(receiver) << 8 | u64::from(column);
        self.side = match self.met(key, base) {
            Some(place) => {
                self.stack.push(mark(place));
                Side::Right
            }
            None => {
                self.keys[self.open] = key;
                self.bases[self.open] = base as u32;
                self.open += 1;
                Side::Left
            }
        };
        self.next = self.code.start(self.program, method, self.side);
        Ok(())
    }

    /// The place of the open left-side call that is the same. One receiver
    /// and one name make one method, so the counts agree.
    #[inline]
    fn met(&self, key: u64, base: usize) -> Option<usize> {
        let arguments = &self.stack[base + 1..];
        (0..self.open.min(MAX_DEPTH)).find(|&place| {
            let other = || &self.stack[self.bases[place] as usize + 1..][..arguments.len()];
            self.keys[place] == key && other() == arguments
        })
    }

    /// Ends a body; gives the value when it was main's.
    #[inline]
    fn answer(&mut self) -> Option<Id> {
        let mut value = self.pop();
        if self.depth == 0 {
            return Some(value);
        }
        if self.side == Side::Left {
            self.open -= 1;
            value = self.arena.close(value, self.open);
        }
        self.stack.truncate(self.base);
        self.stack.push(value);
        self.depth -= 1;
        let caller = self.callers[self.depth];
        self.next = caller.next as usize;
        self.base = caller.base as usize;
        self.side = caller.side;
        None
    }
}
