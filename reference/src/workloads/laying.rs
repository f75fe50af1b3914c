//! Methods that lay objects in a row, four a call: a ring, or a chain with an
//! end. Which objects these are is said by the workloads.

use crate::builder::{Program, minus_open, new, plus, this};
use crate::syntax::{Expr, Type};

/// Where the methods go: their class, the first one's name, the class that
/// all objects fit, and parameters, which every call hands on.
pub struct Row<'a> {
    pub holder: u8,
    pub name: u8,
    pub base: u8,
    pub params: &'a [Type],
}

impl Row<'_> {
    /// Objects of these classes, the last leading to the first. `object` is
    /// one of a class that leads to another.
    pub fn ring(&self, p: &mut Program, classes: &[u8], object: impl Fn(u8, Expr) -> Expr) {
        self.lay(p, classes, self.call(0), object);
    }

    /// The same with an object of class `end` after the last.
    pub fn chain(
        &self,
        p: &mut Program,
        classes: &[u8],
        end: u8,
        object: impl Fn(u8, Expr) -> Expr,
    ) {
        self.lay(p, classes, new(end, []), object);
    }

    fn lay(&self, p: &mut Program, classes: &[u8], end: Expr, object: impl Fn(u8, Expr) -> Expr) {
        let types = (plus(self.base), minus_open(self.base));
        let fours: Vec<&[u8]> = classes.chunks(4).collect();
        for (place, four) in fours.iter().enumerate() {
            let rest = if place + 1 == fours.len() {
                end.clone()
            } else {
                self.call(place + 1)
            };
            let left = four
                .iter()
                .rev()
                .fold(rest, |rest, &class| object(class, rest));
            let name = self.name + place as u8;
            p.method((self.holder, name), types, self.params, (left, Expr::Res));
        }
    }

    fn call(&self, place: usize) -> Expr {
        let params = (0..self.params.len() as u8).map(Expr::Param).collect();
        Expr::Call(self.name + place as u8, Box::new(this()), params)
    }
}

/// Calls that lay so many objects.
pub fn calls_to_lay(objects: usize) -> usize {
    objects.div_ceil(4)
}
