//! Books of orders by position, in one table.

use crate::refusal::{Layer, Refusal};
use crate::sheet::{Kind, Name, Sheet, Template};
use crate::store::{Header, Store};

#[derive(Clone, Copy, Debug, Default, PartialEq, Eq)]
pub struct Order {
    pub price: i64,
    pub size: u64,
    pub oid: u64,
    pub firm: u32,
}

/// The price that stands for no price.
pub const NO_PRICE: i64 = i64::MIN;

/// Two rows a book, the staged book first.
pub struct Orders {
    depth: usize,
    slots: usize,
    table: Vec<Order>,
    counts: Vec<[u32; 2]>,
    owed: [u32; 2],
}

/// The side that a number says.
#[inline(always)]
fn side(number: u64) -> Option<usize> {
    match number {
        48 => Some(0),
        49 => Some(1),
        _ => None,
    }
}

/// Puts an order at position `at`, from 0, of the first `count` of a row.
#[inline(always)]
fn insert(row: &mut [Order], count: usize, at: usize, order: Order) -> bool {
    if at > count || count >= row.len() {
        return false;
    }
    row.copy_within(at..count, at + 1);
    row[at] = order;
    true
}

impl Orders {
    /// Books of that depth, over a table of `room` orders.
    pub fn open(depth: u64, room: u64) -> Result<Self, Refusal> {
        if !(1..=1_024).contains(&depth) || room < 4 * depth {
            return Err(Refusal { number: 16, layer: Layer::Store, place: 4 });
        }
        let depth = depth as usize;
        let slots = (room / (2 * depth as u64) - 1).min(64) as usize;
        let table = vec![Order::default(); 2 * depth * (slots + 1)];
        Ok(Orders { depth, slots, table, counts: vec![[0; 2]; slots + 1], owed: [0; 2] })
    }

    /// The orders of a slot's side.
    pub fn side(&self, slot: usize, side: usize) -> &[Order] {
        &self.table[(2 * (slot + 1) + side) * self.depth..][..self.counts[slot + 1][side] as usize]
    }

    #[inline(always)]
    fn row(&mut self, book: usize, side: usize) -> (&mut [Order], &mut u32) {
        (&mut self.table[(2 * book + side) * self.depth..][..self.depth], &mut self.counts[book][side])
    }

    /// The order that a block or entry says.
    #[inline(always)]
    fn order(template: &Template, part: &[u8]) -> Order {
        Order {
            price: template.read(Name::Price, part) as i64,
            size: template.read(Name::Size, part),
            oid: template.read(Name::Oid, part),
            firm: template.read(Name::Firm, part) as u32,
        }
    }

    /// A new or changed order.
    #[inline(always)]
    fn enter(&mut self, sheet: &Sheet, slot: usize, template: &Template, part: &[u8]) -> bool {
        let action = template.read(Name::Action, part) as u8;
        let Some(side) = side(template.read(Name::Side, part)) else { return false };
        let at = (template.read(Name::Position, part) as usize).wrapping_sub(1);
        let order = Self::order(template, part);
        let (row, count) = self.row(slot + 1, side);
        if action == sheet.actions.new {
            let fits = insert(row, *count as usize, at, order);
            *count += fits as u32;
            fits
        } else if action == sheet.actions.change && at < *count as usize {
            row[at] = order;
            true
        } else {
            false
        }
    }

    /// Takes the orders from `from` up to `to` out of a side; the caller knows that they are there.
    #[inline(always)]
    fn cut(&mut self, book: usize, side: usize, from: usize, to: usize) {
        let (row, count) = self.row(book, side);
        row.copy_within(to..*count as usize, from);
        *count -= (to - from) as u32;
    }

    /// A delete or a cut: the side and the position, from 0, where there is an order.
    #[inline(always)]
    fn place(&self, slot: usize, template: &Template, part: &[u8]) -> Option<(usize, usize)> {
        let side = side(template.read(Name::Side, part))?;
        let at = (template.read(Name::Position, part) as usize).wrapping_sub(1);
        (at < self.counts[slot + 1][side] as usize).then_some((side, at))
    }

    /// Takes one order out.
    #[inline(always)]
    fn delete(&mut self, slot: usize, template: &Template, part: &[u8]) -> bool {
        let Some((side, at)) = self.place(slot, template, part) else { return false };
        self.cut(slot + 1, side, at, at + 1);
        true
    }

    /// Takes orders from the top or the bottom.
    fn mass(&mut self, sheet: &Sheet, slot: usize, template: &Template, part: &[u8]) -> bool {
        let action = template.read(Name::Action, part) as u8;
        let Some((side, at)) = self.place(slot, template, part) else { return false };
        if action == sheet.actions.topcut {
            self.cut(slot + 1, side, 0, at + 1);
        } else if action == sheet.actions.bottomcut {
            self.counts[slot + 1][side] = at as u32;
        } else {
            return false;
        }
        true
    }
}

impl Store for Orders {
    fn slots(&self) -> usize {
        self.slots
    }

    #[inline(always)]
    fn apply(&mut self, sheet: &Sheet, slot: usize, template: &Template, part: &[u8]) -> bool {
        match template.kind {
            Kind::Order => self.enter(sheet, slot, template, part),
            Kind::Delete => self.delete(slot, template, part),
            Kind::Mass => self.mass(sheet, slot, template, part),
            Kind::Empty => {
                self.counts[slot + 1] = [0; 2];
                true
            }
            Kind::Stat | Kind::Header | Kind::Entries => true,
        }
    }

    fn freshen(&mut self, slot: usize) {
        self.counts[slot + 1] = [0; 2];
    }

    fn stage(&mut self, header: &Header) -> bool {
        if header.bids as usize > self.depth || header.offers as usize > self.depth {
            return false;
        }
        self.owed = [header.bids, header.offers];
        self.counts[0] = [0; 2];
        true
    }

    #[inline(always)]
    fn add_entry(&mut self, template: &Template, part: &[u8]) -> bool {
        let Some(side) = side(template.read(Name::Side, part)) else { return false };
        let position = template.read(Name::Position, part);
        let owed = self.owed[side];
        let (row, count) = self.row(0, side);
        let Some(place) = row.get_mut(*count as usize) else { return false };
        if owed == 0 || position != *count as u64 + 1 {
            return false;
        }
        *place = Self::order(template, part);
        *count += 1;
        self.owed[side] = owed - 1;
        true
    }

    fn add_stat(&mut self, _: &Template, _: &[u8]) -> bool {
        true
    }

    #[inline(always)]
    fn whole(&self) -> bool {
        self.owed == [0; 2]
    }

    fn adopt(&mut self, slot: usize) {
        for side in 0..2 {
            let (from, count) = (side * self.depth, self.counts[0][side] as usize);
            self.table.copy_within(from..from + count, (2 * (slot + 1) + side) * self.depth);
        }
        self.counts[slot + 1] = self.counts[0];
    }
}
