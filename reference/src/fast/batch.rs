//! The input of an `04` main: what the second text earns, and its value in the
//! arena. Lines are read in `parts.rs`, equal parts are found in `colours.rs`.

use super::arena::{Arena, Id, NO_CLASS, UNDETERMINED, number_id};
use super::colours::{Colours, FIRST_NUMBER, NO_COLOUR};
use super::parts::{Parts, parts};
use super::program::Program;
use super::rings::{INSIDE, Ring};
use crate::batch::{MAX_PARTS, NO_PART};
use crate::refusals::Refusal;
use crate::syntax::{NUMBER, PLUS, Type};
use crate::values::MAX_OBJECTS;

/// The value that main is given, or refusal 14 or 15.
pub fn input(program: &Program, text: &[u8], arena: &mut Arena) -> Result<Option<Id>, Refusal> {
    match program.input {
        None if text.is_empty() => Ok(None),
        Some(place) if !text.is_empty() => {
            let parts = parts(program, text).ok_or(Refusal::Parts)?;
            let reached = reached(program, program.type_at(place), &parts);
            let reached = reached.ok_or(Refusal::Places)?;
            let colours = Colours::of(&parts, reached.list());
            Ok(Some(colours.ok_or(Refusal::Places)?.value(arena)))
        }
        _ => Err(Refusal::Parts),
    }
}

/// Numbers of parts, the root first.
struct Reached {
    numbers: [u8; MAX_PARTS],
    len: usize,
}

impl Reached {
    fn list(&self) -> &[u8] {
        &self.numbers[..self.len]
    }
}

/// The parts that the root reaches, unless one does not fit where it is held.
fn reached(program: &Program, type_: Type, parts: &Parts) -> Option<Reached> {
    let mut reached = Reached {
        numbers: [0; MAX_PARTS],
        len: 1,
    };
    let fits = |class: u8, wanted: u8| program.fits[usize::from(class)] >> wanted & 1 == 1;
    if !fits(parts.parts[0].class, type_.class) {
        return None;
    }
    let mut met = [false; MAX_PARTS];
    met[0] = true;
    let mut next = 0;
    while next < reached.len {
        let part = &parts.parts[usize::from(reached.numbers[next])];
        next += 1;
        let types = &program.fields[usize::from(part.class)];
        for (&field, type_) in part.fields().iter().zip(types) {
            if field == NO_PART {
                if type_.tag == PLUS {
                    return None;
                }
                continue;
            }
            if field == NUMBER {
                if type_.class != NO_CLASS {
                    return None;
                }
                continue;
            }
            let place = usize::from(field);
            if !fits(parts.parts[place].class, type_.class) {
                return None;
            }
            if !met[place] {
                met[place] = true;
                reached.numbers[reached.len] = field;
                reached.len += 1;
            }
        }
    }
    Some(reached)
}

impl Colours {
    /// The value in an arena: one node for each colour, those that lead to each
    /// other as a ring, after all that they lead to.
    fn value(&self, arena: &mut Arena) -> Id {
        let reach = self.reach();
        // What leads to more comes later; in a ring all lead to as many.
        let with_itself = |&colour: &u8| (reach[usize::from(colour)] | 1 << colour).count_ones();
        let mut order: [u8; MAX_OBJECTS] = std::array::from_fn(|colour| colour as u8);
        let order = &mut order[..self.len];
        order.sort_unstable_by_key(with_itself);
        let mut ids = [UNDETERMINED; MAX_OBJECTS];
        for &mut colour in order {
            let place = usize::from(colour);
            if ids[place] != UNDETERMINED {
                continue;
            }
            if reach[place] >> place & 1 == 1 {
                self.add_ring(arena, &reach, place, &mut ids);
            } else {
                let node = &self.nodes[place];
                let values = node.fields.map(|field| self.id(&ids, field));
                let made = arena.make(node.class, &values[..usize::from(node.count)]);
                ids[place] = made.expect("32 objects at most");
            }
        }
        ids[usize::from(self.root)]
    }

    /// The colours that each leads to, by one field or more: bit c for colour c.
    fn reach(&self) -> [u32; MAX_OBJECTS] {
        let mut reach = [0; MAX_OBJECTS];
        for (bits, node) in reach.iter_mut().zip(&self.nodes[..self.len]) {
            for &field in node.fields.iter().filter(|&&field| field < NO_COLOUR) {
                *bits |= 1 << field;
            }
        }
        for through in 0..self.len {
            let further = reach[through];
            for bits in &mut reach[..self.len] {
                if *bits >> through & 1 == 1 {
                    *bits |= further;
                }
            }
        }
        reach
    }

    /// Adds the ring that a colour is in.
    fn add_ring(
        &self,
        arena: &mut Arena,
        reach: &[u32; MAX_OBJECTS],
        colour: usize,
        ids: &mut [Id; MAX_OBJECTS],
    ) {
        let inside =
            |&other: &usize| reach[other] == reach[colour] && reach[colour] >> other & 1 == 1;
        let mut ring = Ring::EMPTY;
        for other in (0..self.len).filter(inside) {
            ids[other] = INSIDE + ring.len as Id;
            ring.len += 1;
        }
        for (node, other) in ring.nodes.iter_mut().zip((0..self.len).filter(inside)) {
            let coloured = &self.nodes[other];
            let fields = coloured.fields.map(|field| self.id(ids, field));
            *node = (coloured.class, coloured.count, fields);
        }
        let first = arena.added(&ring);
        for other in (0..self.len).filter(inside) {
            ids[other] = ids[other] - INSIDE + first;
        }
    }

    fn id(&self, ids: &[Id; MAX_OBJECTS], colour: u8) -> Id {
        match colour {
            NO_COLOUR => UNDETERMINED,
            FIRST_NUMBER.. => number_id(self.numbers[usize::from(colour - FIRST_NUMBER)]),
            _ => ids[usize::from(colour)],
        }
    }
}
