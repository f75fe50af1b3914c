//! The distinct numbers that the parts of a batch hold, found by a small hash
//! table: equal numbers have one place in the list.

use crate::syntax::MAX_FIELDS;
use crate::values::MAX_OBJECTS;

pub struct Numbers {
    pub list: [u16; Numbers::MOST],
    len: usize,
    /// One more than a place of the list, 0 where there is none.
    slots: [u8; Numbers::SLOTS],
}

impl Numbers {
    /// More of them are in no value of 32 objects.
    pub const MOST: usize = MAX_OBJECTS * MAX_FIELDS;
    const SLOTS: usize = 256;

    pub fn new() -> Numbers {
        Numbers {
            list: [0; Numbers::MOST],
            len: 0,
            slots: [0; Numbers::SLOTS],
        }
    }

    /// The place of a number; nothing when there are too many.
    #[inline]
    pub fn enter(&mut self, number: u16) -> Option<u8> {
        let mut slot = usize::from(number.wrapping_mul(0x9E37) >> 8);
        while self.slots[slot] > 0 {
            let place = self.slots[slot] - 1;
            if self.list[usize::from(place)] == number {
                return Some(place);
            }
            slot = (slot + 1) % Numbers::SLOTS;
        }
        let place = self.len;
        *self.list.get_mut(place)? = number;
        self.len += 1;
        self.slots[slot] = place as u8 + 1;
        Some(place as u8)
    }
}
