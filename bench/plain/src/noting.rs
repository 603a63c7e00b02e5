//! A store that notes which of its slots were written.

use crate::sheet::{Sheet, Template};
use crate::store::{Header, Store};

pub struct Noting<S> {
    pub store: S,
    /// A bit for each slot that was written since the caller cleared it.
    pub touched: u64,
}

impl<S: Store> Store for Noting<S> {
    fn slots(&self) -> usize {
        self.store.slots()
    }

    #[inline(always)]
    fn apply(&mut self, sheet: &Sheet, slot: usize, template: &Template, part: &[u8]) -> bool {
        self.touched |= 1 << slot;
        self.store.apply(sheet, slot, template, part)
    }

    fn freshen(&mut self, slot: usize) {
        self.touched |= 1 << slot;
        self.store.freshen(slot);
    }

    fn stage(&mut self, header: &Header) -> bool {
        self.store.stage(header)
    }

    #[inline(always)]
    fn add_entry(&mut self, template: &Template, part: &[u8]) -> bool {
        self.store.add_entry(template, part)
    }

    fn add_stat(&mut self, template: &Template, part: &[u8]) -> bool {
        self.store.add_stat(template, part)
    }

    #[inline(always)]
    fn whole(&self) -> bool {
        self.store.whole()
    }

    fn adopt(&mut self, slot: usize) {
        self.touched |= 1 << slot;
        self.store.adopt(slot);
    }
}
