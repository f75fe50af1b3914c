//! A hash table of ids, open addressing, several ids to a hash if need be.
//! It does not know what an id stands for: the caller compares.

/// Hash and id in one word; 0 is an empty slot, so no id is 0.
pub struct Slots {
    slots: Vec<u64>,
    used: usize,
}

impl Slots {
    pub fn with_slots(count: usize) -> Slots {
        Slots {
            slots: vec![0; count.next_power_of_two()],
            used: 0,
        }
    }

    /// The first id under this hash for which `equal` holds.
    #[inline]
    pub fn find(&self, hash: u64, mut equal: impl FnMut(u32) -> bool) -> Option<u32> {
        let mask = self.slots.len() - 1;
        let mut place = (hash >> 32) as usize & mask;
        loop {
            let slot = self.slots[place];
            if slot == 0 {
                return None;
            }
            if (slot ^ hash) >> 32 == 0 && equal(slot as u32) {
                return Some(slot as u32);
            }
            place = (place + 1) & mask;
        }
    }

    pub fn insert(&mut self, hash: u64, id: u32) {
        if 2 * (self.used + 1) > self.slots.len() {
            self.grow();
        }
        self.used += 1;
        self.put(hash >> 32 << 32 | u64::from(id));
    }

    fn put(&mut self, slot: u64) {
        let mask = self.slots.len() - 1;
        let mut place = (slot >> 32) as usize & mask;
        while self.slots[place] != 0 {
            place = (place + 1) & mask;
        }
        self.slots[place] = slot;
    }

    fn grow(&mut self) {
        let larger = vec![0; 2 * self.slots.len()];
        for slot in std::mem::replace(&mut self.slots, larger) {
            if slot != 0 {
                self.put(slot);
            }
        }
    }
}
