//! Panels: the latest number of every statistic.

use crate::sheet::{Kind, Name, Sheet, Template, STATS};
use crate::store::{Header, Store};

type Values = [Option<i64>; STATS];

pub struct Panel {
    listed: u32,
    panels: Vec<Values>,
    staged: Values,
    owed: u32,
}

/// The number that a statistic says: signed where it has eight bytes.
#[inline(always)]
fn value(template: &Template, part: &[u8]) -> i64 {
    template.read(Name::Value, part) as i64
}

impl Panel {
    /// Fresh panels of a sheet's statistics.
    pub fn open(sheet: &Sheet) -> Self {
        Panel { listed: sheet.stats().len() as u32, panels: vec![[None; STATS]; 64], staged: [None; STATS], owed: 0 }
    }

    /// A slot's numbers, in the sheet's order.
    pub fn values(&self, slot: usize) -> &[Option<i64>] {
        &self.panels[slot][..self.listed as usize]
    }
}

impl Store for Panel {
    fn slots(&self) -> usize {
        64
    }

    #[inline(always)]
    fn apply(&mut self, _: &Sheet, slot: usize, template: &Template, part: &[u8]) -> bool {
        if template.kind == Kind::Stat {
            self.panels[slot][template.stat as usize] = Some(value(template, part));
        }
        true
    }

    fn freshen(&mut self, slot: usize) {
        self.panels[slot] = [None; STATS];
    }

    fn stage(&mut self, header: &Header) -> bool {
        if header.stats > self.listed {
            return false;
        }
        self.owed = header.stats;
        self.staged = [None; STATS];
        true
    }

    fn add_entry(&mut self, _: &Template, _: &[u8]) -> bool {
        true
    }

    fn add_stat(&mut self, template: &Template, part: &[u8]) -> bool {
        if self.owed == 0 {
            return false;
        }
        self.owed -= 1;
        self.staged[template.stat as usize] = Some(value(template, part));
        true
    }

    fn whole(&self) -> bool {
        self.owed == 0
    }

    fn adopt(&mut self, slot: usize) {
        self.panels[slot] = self.staged;
    }
}
