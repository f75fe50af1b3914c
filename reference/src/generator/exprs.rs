//! Expressions on order: given a scope, a class and the tags allowed, an
//! expression that has such a type. The typing rules are followed backwards
//! here and confirmed by the checker afterwards.

use super::numbers;
use super::random::Random;
use crate::classes::{class_fits, fields};
use crate::syntax::{Expr, MINUS, Method, NUMBER, PLUS, Type};
use crate::typing::{Scope, type_of};

/// What is wanted: a class at or below this one, a tag of this set (bit t for
/// tag t). Every set used has tag 00 in it.
#[derive(Clone, Copy, Debug)]
pub struct Want {
    pub class: u8,
    pub tags: u8,
}

pub const ONLY_PLUS: u8 = 0b0001;
const UP_TO_MINUS_OPEN: u8 = 0b0111;
pub const ALL_TAGS: u8 = 0b1111;
const CLOSED_TAGS: u8 = 0b1001;

/// What an argument of a declared type may be.
fn closed_want(type_: Type) -> Want {
    let tags = if type_.tag == MINUS {
        CLOSED_TAGS
    } else {
        ONLY_PLUS
    };
    Want {
        class: type_.class,
        tags,
    }
}

/// What a value of a field may be where an open object is allowed.
fn open_want(type_: Type) -> Want {
    let tags = if type_.tag == MINUS {
        ALL_TAGS
    } else {
        UP_TO_MINUS_OPEN
    };
    Want {
        class: type_.class,
        tags,
    }
}

pub struct Maker<'a> {
    pub scope: Scope<'a>,
    pub random: &'a mut Random,
    /// Attempts left; a class that cannot be built must not cost for ever.
    pub budget: usize,
    /// Whether numbers and branches over them are drawn where nothing asks.
    pub numbers: bool,
}

impl<'a> Maker<'a> {
    pub fn new(scope: Scope<'a>, random: &'a mut Random) -> Self {
        Maker {
            scope,
            random,
            budget: 400,
            numbers: false,
        }
    }

    fn meets(&self, type_: Type, want: Want) -> bool {
        class_fits(self.scope.table, type_.class, want.class) && want.tags >> type_.tag & 1 == 1
    }

    /// An expression of the wanted type, at most `room` deep.
    pub fn make(&mut self, want: Want, room: usize) -> Option<Expr> {
        for _ in 0..4 {
            self.budget = self.budget.checked_sub(1)?;
            let made = match self.random.below(100) {
                _ if room == 0 => return None,
                0..50 if want.class == NUMBER => self.whole(room),
                0..12 if self.numbers => self.choice(want, room),
                0..35 => self.variable(want),
                35..70 => self.object(want, room),
                70..90 => self.call(want, room),
                _ => self.selection(want, room),
            };
            if made.is_some() {
                return made;
            }
        }
        if want.class == NUMBER {
            return Some(numbers::literal(self.random));
        }
        self.variable(want).or_else(|| self.object(want, room))
    }

    /// A number: written down, a sum or a difference.
    fn whole(&mut self, room: usize) -> Option<Expr> {
        let sort = self.random.below(10);
        if room == 1 || sort < 4 {
            return Some(numbers::literal(self.random));
        }
        let left = Box::new(self.operand(room - 1)?);
        let right = Box::new(self.operand(room - 1)?);
        Some(match sort {
            4..7 => Expr::Sum(left, right),
            _ => Expr::Difference(left, right),
        })
    }

    /// A number of tag 00.
    fn operand(&mut self, room: usize) -> Option<Expr> {
        let (class, tags) = (NUMBER, ONLY_PLUS);
        self.make(Want { class, tags }, room)
    }

    /// One of two expressions of the wanted type, by a number. Their types may
    /// have nothing to do with each other: then there is none.
    pub fn choice(&mut self, want: Want, room: usize) -> Option<Expr> {
        let room = room.checked_sub(1)?;
        let number = Box::new(self.operand(room.min(2))?);
        let first = Box::new(self.make(want, room)?);
        let second = Box::new(self.make(want, room)?);
        let made = Expr::Choose(number, first, second);
        type_of(&self.scope, &made).map(|_| made)
    }

    pub fn variable(&mut self, want: Want) -> Option<Expr> {
        let mut fitting = Vec::new();
        for (type_, variable) in [(self.scope.this, Expr::This), (self.scope.res, Expr::Res)] {
            if type_.is_some_and(|type_| self.meets(type_, want)) {
                fitting.push(variable);
            }
        }
        for (place, &type_) in self.scope.params.iter().enumerate() {
            if self.meets(type_, want) {
                fitting.push(Expr::Param(place as u8));
            }
        }
        self.random.pick(&fitting).cloned()
    }

    /// The classes at or below one.
    fn below(&self, class: u8) -> Vec<u8> {
        let count = self.scope.table.classes.len() as u8;
        (0..=count)
            .filter(|&other| class_fits(self.scope.table, other, class))
            .collect()
    }

    pub fn object(&mut self, want: Want, room: usize) -> Option<Expr> {
        let classes = self.below(want.class);
        for _ in 0..3 {
            let class = *self.random.pick(&classes)?;
            let open = want.tags >> 1 & 1 == 1 && self.random.chance(60);
            if let Some(made) = self.object_of(class, open, room) {
                return Some(made);
            }
        }
        None
    }

    /// A new object of just this class; its values may be open or not.
    pub fn object_of(&mut self, class: u8, open: bool, room: usize) -> Option<Expr> {
        let room = room.checked_sub(1)?;
        let wants = fields(self.scope.table, class).into_iter().map(|field| {
            if open {
                open_want(field)
            } else {
                closed_want(field)
            }
        });
        let wants: Vec<Want> = wants.collect();
        let values: Option<Vec<Expr>> = wants.iter().map(|&want| self.make(want, room)).collect();
        Some(Expr::New(class, values?))
    }

    fn call(&mut self, want: Want, room: usize) -> Option<Expr> {
        let in_main = self.scope.in_main;
        let result = |method: &Method| if in_main { method.first } else { method.second };
        let table = self.scope.table;
        let fitting = table.methods.iter().enumerate();
        let fitting: Vec<usize> = fitting
            .filter(|(_, method)| self.meets(result(method), want))
            .map(|(place, _)| place)
            .collect();
        let place = *self.random.pick(&fitting)?;
        self.call_of(&table.methods[place], room)
    }

    /// A call of just this method, on `this` where that has it.
    pub fn call_of(&mut self, method: &Method, room: usize) -> Option<Expr> {
        let inner = room.checked_sub(1)?;
        let owner = Type {
            class: method.owner,
            tag: PLUS,
        };
        let own = |this| class_fits(self.scope.table, this, method.owner);
        let on_this = self.scope.this.is_some_and(|this| own(this.class));
        let receiver = if on_this && inner > 0 && self.random.chance(80) {
            Expr::This
        } else {
            self.make(closed_want(owner), inner)?
        };
        let params = method.params.clone();
        let arguments = params.iter().map(|&param| self.argument(param, inner));
        let arguments: Option<Vec<Expr>> = arguments.collect();
        Some(Expr::Call(method.name, Box::new(receiver), arguments?))
    }

    /// Mostly a variable: calls are met again only when arguments come back. A
    /// number is often one of two that take turns.
    fn argument(&mut self, param: Type, room: usize) -> Option<Expr> {
        let want = closed_want(param);
        if param.class == NUMBER
            && room > 1
            && self.random.chance(30)
            && let Some(variable) = self.variable(want)
            && type_of(&self.scope, &variable).is_some_and(|type_| type_.tag == PLUS)
        {
            return Some(numbers::turned(self.random, variable));
        }
        if room > 0 && self.random.chance(75) {
            let variable = self.variable(want);
            if variable.is_some() {
                return variable;
            }
        }
        self.make(want, room)
    }

    fn selection(&mut self, want: Want, room: usize) -> Option<Expr> {
        let inner = room.checked_sub(1)?;
        let mut fitting = Vec::new();
        for class in self.below(0) {
            let all = fields(self.scope.table, class);
            for (place, &type_) in all.iter().enumerate() {
                if self.meets(type_, want) {
                    fitting.push((class, place as u8));
                }
            }
        }
        let &(class, field) = self.random.pick(&fitting)?;
        let tags = ONLY_PLUS;
        let receiver = self.make(Want { class, tags }, inner)?;
        Some(Expr::Field(field, Box::new(receiver)))
    }
}
