//! Evaluation: from a table and fuel to an outcome and the fuel left.
//! Types are not looked at; a checked run has looked before.

use crate::classes::{self, Found};
use crate::syntax::{Expr, Table};
use crate::values::{Ref, Value};

/// Most calls open at one time, both sides counted.
pub const MAX_DEPTH: usize = 16;

/// Why a run ended without a value; the discriminant is the report's byte.
#[derive(Clone, Copy, Debug, PartialEq, Eq)]
pub enum Stop {
    Stuck = 1,
    OutOfFuel = 2,
    TooDeep = 3,
    TooLarge = 4,
    /// A sum above 65,535.
    SumTooLarge = 5,
}

pub type Outcome = Result<Value, Stop>;

/// What happened on the way, for those who judge the generator by it.
#[derive(Clone, Copy, Debug, Default, PartialEq, Eq)]
pub struct Tally {
    /// Calls met again.
    pub met: u32,
    /// Calls with an open mark somewhere in receiver or arguments.
    pub open: u32,
    /// Calls of a method that a class above the receiver's owns.
    pub inherited: u32,
}

/// Runs main without an input and gives its outcome and the fuel left.
pub fn run(table: &Table, fuel: u16) -> (Outcome, u16) {
    run_on(table, None, fuel)
}

/// Runs main on its input, which is parameter 0.
pub fn run_on(table: &Table, input: Option<Value>, fuel: u16) -> (Outcome, u16) {
    let (outcome, fuel, _) = run_with_tally(table, input, fuel);
    (outcome, fuel)
}

pub fn run_with_tally(table: &Table, input: Option<Value>, fuel: u16) -> (Outcome, u16, Tally) {
    let mut run = Run {
        table,
        fuel,
        depth: 0,
        marks: 0,
        trace: Vec::new(),
        tally: Tally::default(),
    };
    let frame = Frame {
        params: input.into_iter().collect(),
        ..Frame::default()
    };
    let outcome = run.eval(&frame, &table.main);
    (outcome, run.fuel, run.tally)
}

/// The variables of a body. Main has none but its input, and only a right side
/// has `res`.
#[derive(Default)]
struct Frame {
    this: Option<Value>,
    res: Option<Value>,
    params: Vec<Value>,
}

/// What is called: compared by value, field by field.
#[derive(PartialEq)]
struct Redex {
    receiver: Value,
    name: u8,
    arguments: Vec<Value>,
}

impl Redex {
    fn is_open(&self) -> bool {
        self.receiver.is_open() || self.arguments.iter().any(Value::is_open)
    }
}

struct Run<'a> {
    table: &'a Table,
    fuel: u16,
    /// Open calls, on either side.
    depth: usize,
    /// Marks given out so far.
    marks: u32,
    /// Open left-side calls with their marks.
    trace: Vec<(Redex, u32)>,
    tally: Tally,
}

impl<'a> Run<'a> {
    fn eval(&mut self, frame: &Frame, expr: &Expr) -> Outcome {
        match expr {
            Expr::This => frame.this.clone().ok_or(Stop::Stuck),
            Expr::Res => frame.res.clone().ok_or(Stop::Stuck),
            Expr::Param(place) => {
                let value = frame.params.get(usize::from(*place));
                value.cloned().ok_or(Stop::Stuck)
            }
            Expr::Field(field, receiver) => {
                let receiver = self.eval(frame, receiver)?;
                receiver.field(*field).ok_or(Stop::Stuck)
            }
            Expr::Call(name, receiver, arguments) => {
                let receiver = self.eval(frame, receiver)?;
                let found = self.find(&receiver, *name, arguments.len())?;
                let arguments = self.eval_all(frame, arguments)?;
                let redex = Redex {
                    receiver,
                    name: *name,
                    arguments,
                };
                self.call(found, redex)
            }
            Expr::New(class, values) => {
                // The count is tested first: a bad value is never reached.
                if classes::fields(self.table, *class).len() != values.len() {
                    return Err(Stop::Stuck);
                }
                let values = self.eval_all(frame, values)?;
                Value::new(*class, values).ok_or(Stop::TooLarge)
            }
            Expr::Number(number) => Ok(Value::number(*number)),
            Expr::Sum(left, right) => {
                let (left, right) = self.operands(frame, left, right)?;
                let sum = left.checked_add(right).ok_or(Stop::SumTooLarge)?;
                Ok(Value::number(sum))
            }
            Expr::Difference(left, right) => {
                let (left, right) = self.operands(frame, left, right)?;
                Ok(Value::number(left.saturating_sub(right)))
            }
            Expr::Choose(number, first, second) => {
                let taken = match self.operand(frame, number)? {
                    0 => second,
                    _ => first,
                };
                self.eval(frame, taken)
            }
        }
    }

    /// Both numbers, each tested before the next is evaluated.
    fn operands(&mut self, frame: &Frame, left: &Expr, right: &Expr) -> Result<(u16, u16), Stop> {
        let left = self.operand(frame, left)?;
        Ok((left, self.operand(frame, right)?))
    }

    fn operand(&mut self, frame: &Frame, expr: &Expr) -> Result<u16, Stop> {
        match self.eval(frame, expr)?.root() {
            Ref::Number(number) => Ok(number),
            Ref::Object(_) | Ref::Mark(_) | Ref::Undetermined => Err(Stop::Stuck),
        }
    }

    /// Left to right; the first that gives no value ends the list.
    fn eval_all(&mut self, frame: &Frame, exprs: &[Expr]) -> Result<Vec<Value>, Stop> {
        exprs.iter().map(|expr| self.eval(frame, expr)).collect()
    }

    fn find(&self, receiver: &Value, name: u8, count: usize) -> Result<Found<'a>, Stop> {
        let class = receiver.class().ok_or(Stop::Stuck)?;
        classes::find(self.table, class, name)
            .filter(|found| found.method.params.len() == count)
            .ok_or(Stop::Stuck)
    }

    fn call(&mut self, found: Found, redex: Redex) -> Outcome {
        // The unit is spent before the depth is tested.
        self.fuel = self.fuel.checked_sub(1).ok_or(Stop::OutOfFuel)?;
        if self.depth == MAX_DEPTH {
            return Err(Stop::TooDeep);
        }
        self.depth += 1;
        let mut frame = Frame {
            this: Some(redex.receiver.clone()),
            res: None,
            params: redex.arguments.clone(),
        };
        self.tally.open += u32::from(redex.is_open());
        self.tally.inherited += u32::from(redex.receiver.class() != Some(found.owner));
        let met = self.trace.iter().find(|(open, _)| *open == redex);
        let answer = if let Some(&(_, mark)) = met {
            self.tally.met += 1;
            frame.res = Some(Value::mark(mark));
            self.eval(&frame, &found.method.right)?
        } else {
            let mark = self.marks;
            self.marks += 1;
            self.trace.push((redex, mark));
            let answer = self.eval(&frame, &found.method.left)?;
            self.trace.pop();
            answer.closed(mark)
        };
        self.depth -= 1;
        Ok(answer)
    }
}
