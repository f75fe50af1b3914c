//! Texts made to be slow: 21 new objects in a body, again and again, over parts
//! that are copies of one graph and lie in blocks of their own, which other
//! objects may fill. One of them is a row of the table; the example `worst` of
//! `differential` tries them all.

use super::laying::Row;
use super::{Call, Ending, Workload};
use crate::builder::{Program, call, field, minus, minus_open, new, param, plus, res, this};
use crate::calls::Mode;
use crate::syntax::Expr;
use crate::writing;
use std::fmt;

/// How the objects of a part hang together.
#[derive(Clone, Copy, Debug, PartialEq, Eq)]
pub enum Shape {
    Ring,
    Chain,
    /// A chain whose objects lead to themselves too; at most 14 of them.
    Loops,
    /// The same, each by way of another object.
    Pairs,
}

/// Which of a part's objects are of the other of two classes.
#[derive(Clone, Copy, Debug, PartialEq, Eq)]
pub enum Word {
    /// The first.
    Odd,
    /// A good third, as evenly spread as can be: paths must be long to tell
    /// two objects apart.
    Balanced,
    /// None.
    Alike,
}

#[derive(Clone, Copy, Debug)]
pub struct Parts {
    pub shape: Shape,
    pub word: Word,
    pub objects: usize,
    /// By how many places the word of each part is turned against the last.
    pub turn: usize,
    /// Other objects in the block of each part.
    pub beside: usize,
    /// 2 to 4.
    pub count: usize,
}

const NODE: u8 = 1;
const LINK: u8 = 2;
const END: u8 = 3;
const A: u8 = 4;
const B: u8 = 5;
const HOLDER: u8 = 6;
/// The new object over the parts, and one over four others.
const OVER: u8 = 7;
const BOX: u8 = 8;
const BESIDE: u8 = 9;
/// LETTERS classes below BESIDE, from here on.
const LETTER: u8 = 10;
const LETTERS: usize = 18;

const UNDETERMINED: u8 = 0xFE;
/// Part k is made by the names from 16 k on, the others of its block by those
/// from AROUND + 16 k on.
const AROUND: u8 = 0x40;
/// LEVEL makes the 21 new objects, each name after it calls the one before it.
const LEVEL: u8 = 0x80;
const LEVELS: u8 = 5;

impl fmt::Display for Parts {
    fn fmt(&self, to: &mut fmt::Formatter) -> fmt::Result {
        let Parts {
            shape,
            word,
            objects,
            turn,
            beside,
            count,
        } = self;
        write!(
            to,
            "{shape:?} {word:?}, objects {objects}, turn {turn}, beside {beside}, parts {count}"
        )
    }
}

impl Parts {
    /// A checked run that spends all of its fuel: no object is too large.
    pub fn workload(&self, name: String, fuel: u16) -> Workload {
        Workload {
            name,
            call: Call::Run(Mode::Checked),
            text: self.text().expect("parts with few methods"),
            second: Vec::new(),
            fuel,
            spends: usize::from(fuel),
            ending: Ending::OutOfFuel,
        }
    }

    /// The text, unless the parts need more methods than it may have.
    pub fn text(&self) -> Option<Vec<u8>> {
        let mut p = classes(self.count);
        let any = (minus(0), minus(0));
        let endless = (call(UNDETERMINED, this(), []), res());
        p.method((HOLDER, UNDETERMINED), any, &[], endless);
        for part in 0..self.count {
            if self.name(part) == 16 * part as u8 {
                self.lay(&mut p, part);
            }
            self.lay_beside(&mut p, part);
        }
        let arguments: Vec<Expr> = (0..self.count as u8 - 1).map(param).collect();
        let params = vec![plus(NODE); arguments.len()];
        let mut over = arguments.clone();
        over.push(this());
        let mut work = Expr::New(OVER, over);
        for level in 0..LEVELS {
            let left = twenty_one(&work);
            p.method((NODE, LEVEL + level), any, &params, (left, this()));
            work = Expr::Call(LEVEL + level, Box::new(this()), arguments.clone());
        }
        let mut parts = (0..self.count).map(|part| self.made(part));
        let receiver = Box::new(parts.next().expect("a part"));
        let main = Expr::Call(LEVEL + LEVELS - 1, receiver, parts.collect());
        writing::text(&p.table(main))
    }

    /// The first method of a part: the same for all if they are made alike.
    fn name(&self, part: usize) -> u8 {
        if self.turn == 0 { 0 } else { 16 * part as u8 }
    }

    /// The classes of a part's objects.
    fn letters(&self, part: usize) -> Vec<u8> {
        let objects = self.objects;
        let letter = |place: usize| match self.word {
            Word::Odd => place == 0,
            Word::Balanced => {
                let others = coprime_third(objects);
                (place + 1) * others / objects > place * others / objects
            }
            Word::Alike => false,
        };
        let turned = |place| (place + part * self.turn) % objects;
        let class = |place| if letter(turned(place)) { B } else { A };
        (0..objects).map(class).collect()
    }

    fn lay(&self, p: &mut Program, part: usize) {
        let name = self.name(part);
        let letters = self.letters(part);
        let row = Row {
            holder: HOLDER,
            name,
            base: NODE,
            params: &[minus(0)],
        };
        let link = |class, next| new(class, [next, param(0), param(0), param(0)]);
        match self.shape {
            Shape::Ring => row.ring(p, &letters, link),
            Shape::Chain => row.chain(p, &letters, END, link),
            Shape::Loops => lay_loops(p, name, &letters, loop_object),
            Shape::Pairs => lay_loops(p, name, &letters, pair_object),
        }
    }

    /// A ring around a part: in the first two blocks with one odd object, in
    /// the others of many classes.
    fn lay_beside(&self, p: &mut Program, part: usize) {
        let beside = self.beside(part);
        let varied = |place: usize| 7 * place + 5 * part + 3 * (place / LETTERS);
        let class = |place: usize| match part {
            0 | 1 => usize::from(place + 1 == beside),
            _ => varied(place) % LETTERS,
        };
        let classes: Vec<u8> = (0..beside).map(|at| LETTER + class(at) as u8).collect();
        let row = Row {
            holder: HOLDER,
            name: AROUND + 16 * part as u8,
            base: BESIDE,
            params: &[plus(NODE)],
        };
        row.ring(p, &classes, |class, next| {
            new(class, [next, param(0), param(0), param(0)])
        });
    }

    /// Every other block has one object less.
    fn beside(&self, part: usize) -> usize {
        self.beside.saturating_sub(part % 2)
    }

    /// A part, taken out of the ring around it if there is one.
    fn made(&self, part: usize) -> Expr {
        let holder = || new(HOLDER, []);
        let undetermined = call(UNDETERMINED, holder(), []);
        let made = call(self.name(part), holder(), [undetermined]);
        if self.beside(part) == 0 {
            return made;
        }
        field(1, call(AROUND + 16 * part as u8, holder(), [made]))
    }
}

fn classes(parts: usize) -> Program {
    let mut p = Program::start();
    let any = minus(0);
    p.class(0, &[]);
    p.class(NODE, &[plus(NODE), any, any, any]);
    p.class(NODE, &[]);
    p.class(LINK, &[]);
    p.class(LINK, &[]);
    p.class(0, &[]);
    p.class(0, &vec![any; parts]);
    p.class(0, &[any; 4]);
    p.class(0, &[plus(BESIDE), plus(NODE), plus(NODE), plus(NODE)]);
    for _ in 0..LETTERS {
        p.class(BESIDE, &[]);
    }
    p
}

/// An object of this class over the next one and its own call.
type Made = fn(u8, Expr, Expr) -> Expr;

fn loop_object(class: u8, next: Expr, own: Expr) -> Expr {
    new(class, [next, own.clone(), own, param(0)])
}

fn pair_object(class: u8, next: Expr, own: Expr) -> Expr {
    let other = new(A, [new(END, []), own.clone(), own, param(0)]);
    new(class, [next, other, param(0), param(0)])
}

/// One object a call: the next one's is open while it is made.
fn lay_loops(p: &mut Program, name: u8, letters: &[u8], object: Made) {
    let types = (plus(NODE), minus_open(NODE));
    for (place, &class) in (name..).zip(letters) {
        let made = |name| call(name, this(), [param(0)]);
        let next = match place + 1 == name + letters.len() as u8 {
            true => new(END, []),
            false => made(place + 1),
        };
        let left = object(class, next, made(place));
        p.method((HOLDER, place), types, &[minus(0)], (left, res()));
    }
}

/// Does the work 21 times, boxes the answers, and gives back `this`: the boxes
/// are four distinct objects, however often that is done.
fn twenty_one(work: &Expr) -> Expr {
    let work = || work.clone();
    let four = || new(BOX, [work(), work(), work(), work()]);
    let seven = || new(BOX, [four(), work(), work(), work()]);
    field(0, new(BOX, [this(), seven(), seven(), seven()]))
}

/// A number near 0.38 of another that has no divisor in common with it.
fn coprime_third(number: usize) -> usize {
    let divides = |one: &usize, by: usize| one.is_multiple_of(by) && number.is_multiple_of(by);
    (number * 38 / 100..)
        .find(|one| *one > 0 && !(2..=number).any(|by| divides(one, by)))
        .expect("the number after it at the latest")
}
