//! The receiver: a window of packets, the marks of the watched instruments, and the snapshot group that is open.

use crate::packet::{self, check, group, Spots, HEAD, MOST};
use crate::refusal::Refusal;
use crate::sheet::{Kind, Name, Sheet, Template};
use crate::store::{Header, Store};
use crate::watch::Watch;

pub const WINDOW: u64 = 32;
pub const SHELF: usize = WINDOW as usize * MOST;
/// A book that is this far behind the highest number heard waits for what can never come.
const BEHIND: u64 = WINDOW + 1;

#[derive(Clone, Copy, PartialEq, Eq, Debug)]
pub enum Answer {
    Taken(u32),
    Repeat,
}

#[derive(Clone, Copy, PartialEq, Eq, Debug)]
pub enum Mark {
    Stale,
    AsOf(u64),
}

/// The open group: the instrument, its slot and the header's last packet.
#[derive(Clone, Copy)]
struct Open {
    instrument: u64,
    slot: usize,
    last: u64,
}

/// The packets on the shelf: the number and length of each place. A number that is too old counts as gone.
struct Places {
    numbers: [u32; WINDOW as usize],
    lengths: [u16; WINDOW as usize],
}

impl Places {
    /// The place of a number.
    #[inline(always)]
    fn of(number: u64) -> usize {
        (number % WINDOW) as usize
    }

    /// Whether a number is on the shelf.
    #[inline(always)]
    fn holds(&self, number: u64, heard: u64) -> bool {
        number != 0 && self.numbers[Self::of(number)] as u64 == number && number + WINDOW > heard
    }

    /// The bytes of a number that is on the shelf.
    fn part<'a>(&self, shelf: &'a [u8], number: u64) -> &'a [u8] {
        let place = Self::of(number);
        &shelf[place * MOST..][..self.lengths[place] as usize]
    }
}

/// How far the books are. Most stand at one number, the front, so that a packet moves them all at once.
struct Marks {
    front: u64,
    at_front: u64,
    behind: u64,
    as_of: [u64; 64],
}

impl Marks {
    /// The mark of a slot.
    fn mark(&self, slot: usize) -> Mark {
        if self.at_front >> slot & 1 == 1 {
            Mark::AsOf(self.front)
        } else if self.behind >> slot & 1 == 1 {
            Mark::AsOf(self.as_of[slot])
        } else {
            Mark::Stale
        }
    }

    /// Marks a slot; it counts as behind until the next settling.
    fn set(&mut self, slot: usize, as_of: u64) {
        self.at_front &= !(1 << slot);
        self.behind |= 1 << slot;
        self.as_of[slot] = as_of;
    }

    /// Counts all books as behind, each with its own number.
    fn part(&mut self) {
        for slot in slots(self.at_front) {
            self.as_of[slot] = self.front;
        }
        self.behind |= self.at_front;
        self.at_front = 0;
    }

    /// The books that stand at a number.
    fn standing(&self, number: u64) -> u64 {
        slots(self.behind).filter(|slot| self.as_of[*slot] == number).fold(0, |mask, slot| mask | 1 << slot)
    }

    /// Makes the furthest number the front.
    fn gather(&mut self) {
        self.front = slots(self.behind).map(|slot| self.as_of[slot]).max().unwrap_or(0);
        self.at_front = self.standing(self.front);
        self.behind &= !self.at_front;
    }
}

/// The slots of a mask.
fn slots(mut mask: u64) -> impl Iterator<Item = usize> {
    std::iter::from_fn(move || {
        let slot = mask.trailing_zeros() as usize;
        mask &= mask.wrapping_sub(1);
        (slot < 64).then_some(slot)
    })
}

pub struct Receiver<S> {
    pub store: S,
    pub sheet: Sheet,
    channel: u8,
    version: u16,
    watch: Watch,
    heard: u64,
    places: Places,
    marks: Marks,
    spots: Spots,
    joined: bool,
    latest: Option<(u16, u32)>,
    open: Option<Open>,
}

/// Whether a receiver can be opened: the watch list, or the lowest place that is refused.
pub fn check_opening(watch: &[u64], version: u16, slots: usize) -> Result<Watch, Refusal> {
    let list = Watch::new(watch).ok_or(Refusal::stream(16, 1))?;
    if !loop_or_version(version) {
        return Err(Refusal::stream(16, 2));
    }
    if slots < list.count {
        return Err(Refusal::stream(16, 3));
    }
    Ok(list)
}

/// Whether a version can be one.
fn loop_or_version(version: u16) -> bool {
    (1..=65_534).contains(&version)
}

impl<S: Store> Receiver<S> {
    /// A new receiver.
    pub fn open(mut store: S, sheet: Sheet, channel: u8, version: u16, watch: Watch) -> Self {
        slots(watch.all()).for_each(|slot| store.freshen(slot));
        Receiver {
            store,
            sheet,
            channel,
            version,
            heard: 0,
            places: Places { numbers: [0; 32], lengths: [0; 32] },
            marks: Marks { front: 0, at_front: watch.all(), behind: 0, as_of: [0; 64] },
            watch,
            spots: Spots::new(),
            joined: false,
            latest: None,
            open: None,
        }
    }

    /// Starts anew, as just opened.
    pub fn restart(&mut self) {
        slots(self.watch.all()).for_each(|slot| self.store.freshen(slot));
        self.heard = 0;
        self.places.numbers = [0; 32];
        self.marks = Marks { front: 0, at_front: self.watch.all(), behind: 0, as_of: [0; 64] };
        self.joined = false;
        self.latest = None;
        self.open = None;
    }

    /// An incremental packet.
    pub fn incremental(&mut self, shelf: &mut [u8], bytes: &[u8]) -> Result<Answer, Refusal> {
        self.check_packet(shelf, bytes)?;
        if packet::version(bytes) != self.version {
            return Err(Refusal::stream(10, 2));
        }
        let number = Self::check_number(bytes)? as u64;
        if number + WINDOW <= self.heard {
            return Err(Refusal::stream(12, 4));
        }
        if self.places.holds(number, self.heard) {
            return Ok(Answer::Repeat);
        }
        let place = Places::of(number);
        shelf[place * MOST..][..bytes.len()].copy_from_slice(bytes);
        self.places.numbers[place] = number as u32;
        self.places.lengths[place] = bytes.len() as u16;
        self.heard = self.heard.max(number);
        if self.marks.behind == 0 && self.marks.front + 1 == number {
            self.take(bytes, number, self.marks.at_front);
            self.marks.front = number;
        }
        self.settle(shelf);
        Ok(Answer::Taken(0))
    }

    /// What both packet calls check before they part.
    #[inline(always)]
    fn check_packet(&mut self, shelf: &[u8], bytes: &[u8]) -> Result<(), Refusal> {
        if shelf.len() < SHELF {
            return Err(Refusal::stream(14, shelf.len()));
        }
        check(&self.sheet, bytes, &mut self.spots)?;
        if packet::channel(bytes) != self.channel {
            return Err(Refusal::stream(9, 0));
        }
        Ok(())
    }

    /// The packet's number, which is not 0.
    #[inline(always)]
    fn check_number(bytes: &[u8]) -> Result<u32, Refusal> {
        match packet::number(bytes) {
            0 => Err(Refusal::stream(11, 4)),
            number => Ok(number),
        }
    }

    /// Applies the packet in `spots` to the books of a mask; a book that a message does not fit gets stale.
    /// Gives the books that took all of it.
    #[inline(always)]
    fn take(&mut self, bytes: &[u8], number: u64, mut standing: u64) -> u64 {
        debug_assert!(number > 0);
        for spot in self.spots.list() {
            let template = &self.sheet.templates[spot.template as usize];
            if matches!(template.kind, Kind::Header | Kind::Entries) {
                continue;
            }
            let part = &bytes[spot.start as usize + HEAD..];
            let Some(slot) = self.watch.slot(template.read(Name::Security, part)) else { continue };
            if standing >> slot & 1 == 1 && !self.store.apply(&self.sheet, slot, template, part) {
                standing &= !(1 << slot);
                self.marks.at_front &= !(1 << slot);
                self.marks.behind &= !(1 << slot);
                self.store.freshen(slot);
            }
        }
        standing
    }

    /// Settles all books.
    #[inline(always)]
    fn settle(&mut self, shelf: &[u8]) {
        if self.marks.behind != 0 {
            return self.settle_each(shelf);
        }
        while self.marks.at_front != 0 && self.places.holds(self.marks.front + 1, self.heard) {
            let number = self.marks.front + 1;
            self.take_shelved(shelf, number, self.marks.at_front);
            self.marks.front = number;
        }
        if self.marks.front + BEHIND <= self.heard && self.marks.at_front != 0 {
            let aged = std::mem::take(&mut self.marks.at_front);
            slots(aged).for_each(|slot| self.store.freshen(slot));
        }
    }

    /// Settles books that stand at different numbers.
    fn settle_each(&mut self, shelf: &[u8]) {
        self.marks.part();
        let lowest = slots(self.marks.behind).map(|slot| self.marks.as_of[slot]).min().unwrap_or(self.heard);
        for number in lowest.max(self.heard.saturating_sub(WINDOW))..self.heard {
            if self.places.holds(number + 1, self.heard) {
                let standing = self.marks.standing(number);
                if standing != 0 {
                    let taken = self.take_shelved(shelf, number + 1, standing);
                    slots(taken).for_each(|slot| self.marks.as_of[slot] = number + 1);
                }
            }
        }
        for slot in slots(self.marks.behind) {
            if self.marks.as_of[slot] + BEHIND <= self.heard {
                self.marks.behind &= !(1 << slot);
                self.store.freshen(slot);
            }
        }
        self.marks.gather();
    }

    /// Applies a packet that lies on the shelf, whose bytes may have changed since; gives the books that took all of it.
    fn take_shelved(&mut self, shelf: &[u8], number: u64, standing: u64) -> u64 {
        let bytes = self.places.part(shelf, number);
        if check(&self.sheet, bytes, &mut self.spots).is_err() {
            self.marks.at_front &= !standing;
            self.marks.behind &= !standing;
            slots(standing).for_each(|slot| self.store.freshen(slot));
            return 0;
        }
        self.take(bytes, number, standing)
    }

    /// Joins the snapshot loop.
    pub fn join(&mut self) -> Result<(), Refusal> {
        if self.joined {
            return Err(Refusal::stream(13, 0));
        }
        self.joined = true;
        Ok(())
    }

    /// Leaves the snapshot loop.
    pub fn leave(&mut self) -> Result<(), Refusal> {
        if !self.joined {
            return Err(Refusal::stream(13, 0));
        }
        self.joined = false;
        self.latest = None;
        self.open = None;
        Ok(())
    }

    /// A snapshot packet.
    pub fn snapshot(&mut self, shelf: &[u8], bytes: &[u8]) -> Result<Answer, Refusal> {
        if !self.joined {
            return Err(Refusal::stream(13, 0));
        }
        self.check_packet(shelf, bytes)?;
        let version = packet::version(bytes);
        if !loop_or_version(version) {
            return Err(Refusal::stream(10, 2));
        }
        let number = Self::check_number(bytes)?;
        match self.latest {
            Some((latest, last)) if latest == version && number <= last => return Ok(Answer::Repeat),
            Some((latest, last)) if latest == version && number == last + 1 => {}
            _ => self.open = None,
        }
        self.latest = Some((version, number));
        Ok(Answer::Taken(self.read_snapshot(shelf, bytes)))
    }

    /// Reads the snapshot packet in `spots`; gives the number of adoptions.
    fn read_snapshot(&mut self, shelf: &[u8], bytes: &[u8]) -> u32 {
        let spots = std::mem::take(&mut self.spots);
        let mut adoptions = 0;
        for spot in spots.list() {
            let template = self.sheet.templates[spot.template as usize];
            let message = &bytes[spot.start as usize..];
            adoptions += match template.kind {
                Kind::Header => self.header(shelf, &template, &message[HEAD..]),
                Kind::Entries => self.entries(shelf, &template, message),
                Kind::Stat => self.stat(shelf, &template, &message[HEAD..]),
                _ => 0,
            };
        }
        adoptions
    }

    /// A header closes the open group and stages one of a watched instrument.
    fn header(&mut self, shelf: &[u8], template: &Template, part: &[u8]) -> u32 {
        let read = |name| template.read(name, part) as u32;
        let header = Header { last: read(Name::Last), bids: read(Name::Bids), offers: read(Name::Offers), stats: read(Name::Stats) };
        let instrument = template.read(Name::Security, part);
        self.open = None;
        if let Some(slot) = self.watch.slot(instrument) {
            if self.store.stage(&header) {
                self.open = Some(Open { instrument, slot, last: header.last as u64 });
            }
        }
        self.decide(shelf)
    }

    /// Adds the entries of a message to the group of its instrument, until it is decided.
    fn entries(&mut self, shelf: &[u8], template: &Template, message: &[u8]) -> u32 {
        let instrument = template.read(Name::Security, &message[HEAD..]);
        if self.open.is_none_or(|open| open.instrument != instrument) {
            return 0;
        }
        let block = u16::from_le_bytes([message[4], message[5]]) as usize;
        let Some(group) = group(template, &message[HEAD + block..]) else { return 0 };
        let mut entries = group.entries;
        for _ in 0..group.count {
            if !self.store.add_entry(template, entries) {
                self.open = None;
                return 0;
            }
            if self.store.whole() {
                return self.decide(shelf);
            }
            entries = &entries[group.length..];
        }
        0
    }

    /// Adds a statistic to the group of its instrument.
    fn stat(&mut self, shelf: &[u8], template: &Template, part: &[u8]) -> u32 {
        let instrument = template.read(Name::Security, part);
        if self.open.is_none_or(|open| open.instrument != instrument) {
            return 0;
        }
        if !self.store.add_stat(template, part) {
            self.open = None;
        }
        self.decide(shelf)
    }

    /// Decides the open group once it is whole: 1 where it is adopted.
    fn decide(&mut self, shelf: &[u8]) -> u32 {
        let Some(open) = self.open.filter(|_| self.store.whole()) else { return 0 };
        self.open = None;
        let past = matches!(self.marks.mark(open.slot), Mark::AsOf(as_of) if open.last <= as_of);
        if past || open.last + BEHIND <= self.heard {
            return 0;
        }
        self.store.adopt(open.slot);
        self.marks.set(open.slot, open.last);
        self.heard = self.heard.max(open.last);
        self.settle(shelf);
        1
    }

    /// The slot of an instrument, or its refusal where it is not watched.
    pub fn slot(&self, instrument: u64) -> Result<usize, Refusal> {
        self.watch.slot(instrument).ok_or(Refusal::stream(15, 0))
    }

    /// How an instrument's book stands.
    pub fn question(&self, instrument: u64) -> Result<Mark, Refusal> {
        Ok(self.marks.mark(self.slot(instrument)?))
    }

    /// The slots whose book is current, and those whose book is recovering.
    pub fn signs(&self) -> (u64, u64) {
        let level = if self.marks.front == self.heard { self.marks.at_front } else { 0 };
        let caught_up = self.marks.standing(self.heard);
        let current = level | caught_up;
        (current, (self.marks.at_front | self.marks.behind) & !current)
    }

    /// The highest number heard.
    pub fn heard(&self) -> u64 {
        self.heard
    }
}
