//! Closing: X = u. What leads to X in u becomes one ring, which is minimised
//! here once and then either found in the arena or added to it.

use super::arena::{Arena, Id, Node, UNDETERMINED, hash, mark};
use crate::values::MAX_OBJECTS;

/// A field that leads to the node of the ring with the number that is added.
pub const INSIDE: u32 = 1 << 31;

/// Nodes of a ring under construction, the root first. Fields lead inside or
/// to ids of the arena.
pub struct Ring {
    /// Class, count and fields.
    pub nodes: [(u8, u8, [u32; 4]); MAX_OBJECTS],
    pub len: usize,
}

impl Ring {
    pub const EMPTY: Ring = Ring {
        nodes: [(0, 0, [UNDETERMINED; 4]); MAX_OBJECTS],
        len: 0,
    };
}

impl Arena {
    /// The answer `value` of the left-side call at this place. Marks of later
    /// places are gone, so a value is only ever closed by its highest one.
    #[inline]
    pub fn close(&mut self, value: Id, place: usize) -> Id {
        let node = self.node(value);
        if node.open >> place & 1 == 0 {
            return value;
        }
        if node.closed != UNDETERMINED || value == mark(place) {
            return node.closed;
        }
        self.close_anew(value, place)
    }

    fn close_anew(&mut self, value: Id, place: usize) -> Id {
        let ring = minimised(&self.opened(value, place));
        let closed = match self.found(&ring) {
            Some(id) => id,
            None => self.added(&ring),
        };
        self.node_mut(value).closed = closed;
        closed
    }

    /// The nodes from which the mark is reached, with the root for the mark.
    fn opened(&mut self, root: Id, place: usize) -> Ring {
        let base = self.next_stamp();
        let mut ids = [root; MAX_OBJECTS];
        let mut ring = Ring::EMPTY;
        ring.len = 1;
        self.node_mut(root).stamp = base;
        let mut next = 0;
        while next < ring.len {
            let Node {
                class,
                count,
                mut fields,
                ..
            } = *self.node(ids[next]);
            for field in &mut fields {
                let node = self.node_mut(*field);
                if *field == mark(place) {
                    *field = INSIDE;
                } else if node.open >> place & 1 == 1 {
                    if node.stamp < base {
                        node.stamp = base + ring.len as u32;
                        ids[ring.len] = *field;
                        ring.len += 1;
                    }
                    *field = INSIDE + (node.stamp - base);
                }
            }
            ring.nodes[next] = (class, count, fields);
            next += 1;
        }
        ring
    }

    /// The node of the arena that equals the ring's root, if there is one.
    /// It is in a ring that a field leads out to, or in one of the same look.
    fn found(&self, ring: &Ring) -> Option<Id> {
        for (_, _, fields) in &ring.nodes[..ring.len] {
            for &field in fields.iter().filter(|&&field| field < INSIDE) {
                let node = self.node(field);
                if node.ring > 0
                    && let Some(id) = self.turned(ring, field - Id::from(node.place))
                {
                    return Some(id);
                }
            }
        }
        let mut found = None;
        self.rings.find(look(ring), |first| {
            found = self.turned(ring, first);
            found.is_some()
        });
        found
    }

    /// The node, among those of the arena's ring, that equals the root.
    fn turned(&self, ring: &Ring, first: Id) -> Option<Id> {
        let count = Id::from(self.node(first).ring);
        (first..first + count).find(|&id| self.equals(ring, id))
    }

    /// Follows the ring and the arena in step. Arena ids are equal exactly
    /// when their values are, so each node of the ring has just one partner.
    fn equals(&self, ring: &Ring, root: Id) -> bool {
        let mut partners = [UNDETERMINED; MAX_OBJECTS];
        let mut todo = [0; MAX_OBJECTS];
        let mut waiting = 1;
        partners[0] = root;
        while waiting > 0 {
            waiting -= 1;
            let place = todo[waiting];
            let (class, _, fields) = &ring.nodes[place];
            let node = self.node(partners[place]);
            if node.class != *class {
                return false;
            }
            for (&field, &partner) in fields.iter().zip(&node.fields) {
                if field < INSIDE {
                    if field != partner {
                        return false;
                    }
                    continue;
                }
                let inside = (field - INSIDE) as usize;
                if partners[inside] == UNDETERMINED {
                    partners[inside] = partner;
                    todo[waiting] = inside;
                    waiting += 1;
                }
                if partners[inside] != partner {
                    return false;
                }
            }
        }
        true
    }

    /// Adds a ring that the arena does not have, and gives its root.
    pub fn added(&mut self, ring: &Ring) -> Id {
        let first = self.nodes.len() as Id;
        let mut open = 0;
        for (place, &(class, count, mut fields)) in ring.nodes[..ring.len].iter().enumerate() {
            for field in &mut fields {
                if *field < INSIDE {
                    open |= self.node(*field).open;
                } else {
                    *field = *field - INSIDE + first;
                }
            }
            self.nodes.push(Node {
                fields,
                class,
                count,
                ring: ring.len as u8,
                place: place as u8,
                ..self.nodes[UNDETERMINED as usize]
            });
            self.slots.insert(hash(class, &fields), first + place as Id);
        }
        let bound = self.count_reached(&[first]) as u8;
        for node in &mut self.nodes[first as usize..] {
            node.bound = bound;
            node.open = open;
        }
        self.rings.insert(look(ring), first);
        first
    }
}

/// A hash that is the same wherever the root is: the sum of what the nodes
/// look like a few steps deep.
fn look(ring: &Ring) -> u64 {
    const STEPS: usize = 8;
    let mut seen = [INSIDE; MAX_OBJECTS];
    let mut sum = 0;
    for _ in 0..ring.len.min(STEPS) {
        let before = seen;
        sum = ring.len as u64;
        for (place, (class, _, fields)) in ring.nodes[..ring.len].iter().enumerate() {
            let inside = |field| INSIDE | before[(field - INSIDE) as usize];
            let look = |field| if field < INSIDE { field } else { inside(field) };
            let hash = hash(*class, &fields.map(look));
            seen[place] = (hash >> 32) as u32;
            sum = sum.wrapping_add(hash);
        }
    }
    sum
}

/// The same value with equal nodes of the ring made one.
fn minimised(ring: &Ring) -> Ring {
    let (mut groups, mut count) = grouped(ring, &[0; MAX_OBJECTS]);
    while count < ring.len {
        let (finer, more) = grouped(ring, &groups);
        if more == count {
            break;
        }
        (groups, count) = (finer, more);
    }
    let mut smaller = Ring {
        nodes: ring.nodes,
        len: count,
    };
    let mut next = 0;
    for (place, &(class, size, fields)) in ring.nodes[..ring.len].iter().enumerate() {
        if groups[place] == next {
            let fields = fields.map(|field| by_group(field, &groups));
            smaller.nodes[next as usize] = (class, size, fields);
            next += 1;
        }
    }
    smaller
}

fn by_group(field: u32, groups: &[u32; MAX_OBJECTS]) -> u32 {
    if field < INSIDE {
        return field;
    }
    INSIDE + groups[(field - INSIDE) as usize]
}

/// Groups of the nodes that look alike when only the groups of what is inside
/// are seen, numbered in the order met, and how many there are.
fn grouped(ring: &Ring, groups: &[u32; MAX_OBJECTS]) -> ([u32; MAX_OBJECTS], usize) {
    let mut finer = [0; MAX_OBJECTS];
    let mut seen = [(0, [0; 4]); MAX_OBJECTS];
    let mut count = 0;
    for (place, (class, _, fields)) in ring.nodes[..ring.len].iter().enumerate() {
        let key = (*class, fields.map(|field| by_group(field, groups)));
        let group = seen[..count].iter().position(|other| *other == key);
        finer[place] = group.unwrap_or(count) as u32;
        if group.is_none() {
            seen[count] = key;
            count += 1;
        }
    }
    (finer, count)
}
