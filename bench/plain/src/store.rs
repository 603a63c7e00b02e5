//! What a receiver keeps an instrument's value in.

use crate::sheet::{Sheet, Template};

/// What a snapshot's header says.
#[derive(Clone, Copy, Debug)]
pub struct Header {
    pub last: u32,
    pub bids: u32,
    pub offers: u32,
    pub stats: u32,
}

pub trait Store {
    /// How many slots there are.
    fn slots(&self) -> usize;
    /// Sets a slot to its value after a message, whose block `part` begins with; false, and nothing changes, where it does not fit.
    fn apply(&mut self, sheet: &Sheet, slot: usize, template: &Template, part: &[u8]) -> bool;
    /// Sets a slot to the fresh value.
    fn freshen(&mut self, slot: usize);
    /// Starts a staged value; false where it cannot be held.
    fn stage(&mut self, header: &Header) -> bool;
    /// Adds an entry to the staged value; false where it does not fit.
    fn add_entry(&mut self, template: &Template, part: &[u8]) -> bool;
    /// Adds a statistic to the staged value; false where it does not fit.
    fn add_stat(&mut self, template: &Template, part: &[u8]) -> bool;
    /// Whether nothing is owed.
    fn whole(&self) -> bool;
    /// Copies the staged value into a slot.
    fn adopt(&mut self, slot: usize);
}
