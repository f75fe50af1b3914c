//! Groups of parts that look alike, found by what they look like: a small hash
//! table for one round of `colours.rs`.

use crate::values::MAX_OBJECTS;

/// Parts that look alike, by what they look like.
pub struct Groups {
    pub groups: [Group; MAX_OBJECTS],
    pub len: usize,
    /// One more than the number of a group, 0 where there is none.
    slots: [u8; Groups::SLOTS],
}

#[derive(Clone, Copy, Default)]
pub struct Group {
    look: u64,
    slot: u8,
    pub size: u8,
    /// The colour that all of it had, and the one that it gets.
    pub colour: u8,
    pub new_colour: u8,
}

impl Groups {
    const SLOTS: usize = 128;

    pub fn new() -> Groups {
        Groups {
            groups: [Group::default(); MAX_OBJECTS],
            len: 0,
            slots: [0; Groups::SLOTS],
        }
    }

    pub fn list(&self) -> &[Group] {
        &self.groups[..self.len]
    }

    pub fn clear(&mut self) {
        for group in &self.groups[..self.len] {
            self.slots[usize::from(group.slot)] = 0;
        }
        self.len = 0;
    }

    /// The group of a part; nothing when there are more than 32 of them.
    #[inline]
    pub fn enter(&mut self, look: u64, colour: u8) -> Option<u8> {
        let mut slot = (look.wrapping_mul(0x9E37_79B9_7F4A_7C15) >> 57) as usize;
        loop {
            let number = usize::from(self.slots[slot]);
            if number == 0 {
                break;
            }
            let group = &mut self.groups[number - 1];
            if group.look == look {
                group.size += 1;
                return Some(number as u8 - 1);
            }
            slot = (slot + 1) % Groups::SLOTS;
        }
        let number = self.len;
        *self.groups.get_mut(number)? = Group {
            look,
            slot: slot as u8,
            size: 1,
            colour,
            new_colour: colour,
        };
        self.slots[slot] = number as u8 + 1;
        self.len += 1;
        Some(number as u8)
    }
}
