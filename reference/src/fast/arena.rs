//! Values as ids of one arena: the same id exactly when the unfoldings are
//! the same, open marks included. Closing a call's answer is in `rings.rs`.
//!
//! Every node is found by its class and the ids of its fields, those of rings
//! too; so a new object that equals one in a ring is that one.

use super::slots::Slots;
use crate::values::MAX_OBJECTS;

pub type Id = u32;
/// The ids of numbers: 65,536 from this one on. They have no nodes of their own.
const NUMBERS: Id = 1 << 30;
/// What an object's fields are padded with, too.
pub const UNDETERMINED: Id = 0;
/// The class of what is no object: the one after the highest.
pub const NO_CLASS: u8 = 33;
const MARKS: u32 = 16;

/// The mark of the open left-side call at this place, counted from 0. Places
/// are used again: once a call is closed, no value has its mark.
pub fn mark(place: usize) -> Id {
    place as Id + 1
}

/// The id of a number.
#[inline]
pub fn number_id(number: u16) -> Id {
    NUMBERS + Id::from(number)
}

/// The number that a value is, if it is one.
#[inline]
pub fn number(id: Id) -> Option<u16> {
    (id >= NUMBERS).then_some(id as u16)
}

#[derive(Clone, Copy)]
pub struct Node {
    pub fields: [Id; 4],
    pub class: u8,
    pub count: u8,
    /// No fewer than the distinct objects in it, and at most 32.
    pub bound: u8,
    /// How many nodes its ring has (they stand side by side), and its place
    /// among them. A node that does not lead back to itself has 0 and 0.
    pub ring: u8,
    pub place: u8,
    /// The answer when this was closed by its highest mark, 0 before that.
    pub closed: Id,
    /// Bit p for each mark p in it.
    pub open: u16,
    /// When it was last met in a walk.
    pub stamp: u32,
}

pub struct Arena {
    pub nodes: Vec<Node>,
    pub slots: Slots,
    /// The first node of each ring, by what no turning of the ring changes.
    pub rings: Slots,
    pub todo: Vec<Id>,
    stamp: u32,
    /// The object of each class without fields, 0 before it is made.
    bare: [Id; 33],
}

impl Arena {
    pub fn new() -> Arena {
        let leaf = Node {
            fields: [UNDETERMINED; 4],
            class: NO_CLASS,
            count: 0,
            bound: 0,
            ring: 0,
            place: 0,
            closed: 0,
            open: 0,
            stamp: 0,
        };
        let mut nodes = Vec::with_capacity(64);
        nodes.push(leaf);
        nodes.extend((0..MARKS).map(|place| Node {
            open: 1 << place,
            ..leaf
        }));
        Arena {
            nodes,
            slots: Slots::with_slots(64),
            rings: Slots::with_slots(16),
            todo: Vec::new(),
            stamp: 0,
            bare: [0; 33],
        }
    }

    /// The node of a value; a number has that of the undetermined value, since
    /// both are leaves without a mark.
    #[inline]
    pub fn node(&self, id: Id) -> &Node {
        &self.nodes[place(id)]
    }

    #[inline]
    pub fn node_mut(&mut self, id: Id) -> &mut Node {
        &mut self.nodes[place(id)]
    }

    /// A stamp no node has, nor any of the 63 after it.
    pub fn next_stamp(&mut self) -> u32 {
        self.stamp += 64;
        self.stamp
    }

    /// The object without fields of a class.
    #[inline]
    pub fn bare(&mut self, class: u8) -> Id {
        let known = self.bare[usize::from(class)];
        if known != 0 {
            return known;
        }
        let made = self.make(class, &[]).expect("one object is not too many");
        self.bare[usize::from(class)] = made;
        made
    }

    /// The object of a class over these values; nothing when it is too large.
    #[inline]
    pub fn make(&mut self, class: u8, values: &[Id]) -> Option<Id> {
        let mut fields = [UNDETERMINED; 4];
        for (field, &value) in fields.iter_mut().zip(values) {
            *field = value;
        }
        let hash = hash(class, &fields);
        let same = |id: Id| {
            let node = &self.nodes[id as usize];
            node.class == class && node.fields == fields
        };
        match self.slots.find(hash, same) {
            Some(id) => Some(id),
            None => self.fresh(class, values.len() as u8, fields, hash),
        }
    }

    fn fresh(&mut self, class: u8, count: u8, fields: [Id; 4], hash: u64) -> Option<Id> {
        let bound = self.bound(&fields)?;
        let id = self.nodes.len() as Id;
        let open = fields.iter().map(|&field| self.node(field).open);
        let node = Node {
            fields,
            class,
            count,
            bound,
            open: open.fold(0, |all, one| all | one),
            ..self.nodes[UNDETERMINED as usize]
        };
        self.nodes.push(node);
        self.slots.insert(hash, id);
        Some(id)
    }

    /// The bound of a fresh object over these fields: the sum of theirs as
    /// long as that is small enough, else the objects are counted.
    fn bound(&mut self, fields: &[Id; 4]) -> Option<u8> {
        let mut sum = 1;
        for (place, field) in fields.iter().enumerate() {
            if !fields[..place].contains(field) {
                sum += usize::from(self.node(*field).bound);
            }
        }
        if sum > MAX_OBJECTS {
            sum = 1 + self.count_reached(fields);
        }
        (sum <= MAX_OBJECTS).then_some(sum as u8)
    }

    /// How many objects these lead to; the count may stop above 32.
    pub fn count_reached(&mut self, roots: &[Id]) -> usize {
        let stamp = self.next_stamp();
        let mut todo = std::mem::take(&mut self.todo);
        todo.clear();
        todo.extend(roots);
        let mut count = 0;
        while let Some(id) = todo.pop() {
            let node = self.node_mut(id);
            if node.class != NO_CLASS && node.stamp != stamp {
                node.stamp = stamp;
                count += 1;
                if count > MAX_OBJECTS {
                    break;
                }
                todo.extend(&node.fields[..usize::from(node.count)]);
            }
        }
        self.todo = todo;
        count
    }
}

#[inline]
fn place(id: Id) -> usize {
    if id < NUMBERS { id as usize } else { 0 }
}

/// The upper half is what the tables use.
#[inline]
pub fn hash(class: u8, fields: &[Id; 4]) -> u64 {
    const ODD: u64 = 0x9E37_79B9_7F4A_7C15;
    let pair = |one: Id, two: Id| u64::from(one) << 32 | u64::from(two);
    let first = (pair(fields[0], fields[1]) ^ u64::from(class)).wrapping_mul(ODD);
    let second = (first.rotate_left(29) ^ pair(fields[2], fields[3])).wrapping_mul(ODD);
    second ^ second << 32
}
