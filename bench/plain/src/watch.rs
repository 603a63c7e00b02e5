//! The watched instruments, and the slot of each.

/// The most instruments that can be watched.
pub const WATCHED: usize = 64;
const PLACES: usize = 256;
const FREE: u8 = 255;

/// The slots of the instruments, found by a hash of the instrument.
pub struct Watch {
    ids: [u64; PLACES],
    slots: [u8; PLACES],
    pub count: usize,
}

#[inline(always)]
fn place(id: u64) -> usize {
    (id.wrapping_mul(0x9E37_79B9_7F4A_7C15) >> 56) as usize
}

impl Watch {
    /// The list of these instruments, in the order of their slots; `None` unless they are 1 to 64 different ones.
    pub fn new(list: &[u64]) -> Option<Self> {
        let mut watch = Watch { ids: [0; PLACES], slots: [FREE; PLACES], count: list.len() };
        if list.is_empty() || list.len() > WATCHED {
            return None;
        }
        for (slot, id) in list.iter().enumerate() {
            if watch.slot(*id).is_some() {
                return None;
            }
            let mut at = place(*id);
            while watch.slots[at] != FREE {
                at = (at + 1) % PLACES;
            }
            watch.ids[at] = *id;
            watch.slots[at] = slot as u8;
        }
        Some(watch)
    }

    /// The instrument's slot.
    #[inline(always)]
    pub fn slot(&self, id: u64) -> Option<usize> {
        let mut at = place(id);
        while self.slots[at] != FREE {
            if self.ids[at] == id {
                return Some(self.slots[at] as usize);
            }
            at = (at + 1) % PLACES;
        }
        None
    }

    /// A bit for each slot.
    pub fn all(&self) -> u64 {
        u64::MAX >> (WATCHED - self.count)
    }
}
