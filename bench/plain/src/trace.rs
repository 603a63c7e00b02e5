//! The commands of a trace and their answers.

use crate::orders::{Order, Orders, NO_PRICE};
use crate::packet::{self, check, message, Spots, HEADER};
use crate::panel::Panel;
use crate::receiver::{check_opening, Answer, Mark, Receiver, SHELF};
use crate::refusal::Refusal;
use crate::sheet::{Sheet, UNLISTED};
use crate::sheet_text;
use crate::store::Store;

const LONGEST: usize = 65_536;

/// The receiver over either kind of store.
enum Desk {
    Orders(Receiver<Orders>),
    Panel(Receiver<Panel>),
}

/// Does the same with the receiver of either kind.
macro_rules! either {
    ($desk:expr, $receiver:ident => $answer:expr) => {
        match $desk {
            Desk::Orders($receiver) => $answer,
            Desk::Panel($receiver) => $answer,
        }
    };
}

/// The store that the next opening gets.
enum Next {
    Orders(u64, u64),
    Panel,
}

/// What is in force.
pub struct Trace {
    sheet: Option<Sheet>,
    next: Option<Next>,
    desk: Option<Desk>,
    shelf: Vec<u8>,
}

/// An answer line, a refusal, or nothing where the line is no command that can be followed.
type Answered = Option<Result<String, Refusal>>;

/// A number in figures; leading zeros are let pass.
fn number(word: &[u8]) -> Option<u64> {
    if word.is_empty() {
        return None;
    }
    word.iter().try_fold(0u64, |number, figure| {
        let figure = figure.is_ascii_digit().then(|| (figure - b'0') as u64)?;
        number.checked_mul(10)?.checked_add(figure)
    })
}

/// The value of a lowercase hexadecimal digit.
fn digit(byte: u8) -> Option<u8> {
    match byte {
        b'0'..=b'9' => Some(byte - b'0'),
        b'a'..=b'f' => Some(byte - b'a' + 10),
        _ => None,
    }
}

/// The bytes of a word of hexadecimal digits.
fn hex(word: &[u8]) -> Option<Vec<u8>> {
    if word == b"-" {
        return Some(Vec::new());
    }
    if word.is_empty() || word.len() % 2 == 1 {
        return None;
    }
    word.chunks(2).map(|pair| Some(digit(pair[0])? << 4 | digit(pair[1])?)).collect()
}

/// The 64-bit FNV-1a of bytes.
pub fn digest(bytes: &[u8]) -> u64 {
    bytes.iter().fold(0xcbf2_9ce4_8422_2325, |hash, byte| (hash ^ *byte as u64).wrapping_mul(0x100_0000_01b3))
}

/// The answer of a packet call.
fn told(answer: Answer, counted: bool) -> String {
    match answer {
        Answer::Repeat => "repeat".into(),
        Answer::Taken(adoptions) if counted => format!("taken {adoptions}"),
        Answer::Taken(_) => "taken".into(),
    }
}

/// An order as it is shown.
fn shown(order: &Order) -> String {
    let price = if order.price == NO_PRICE { "none".into() } else { order.price.to_string() };
    format!(" {},{},{},{}", price, order.size, order.oid, order.firm)
}

impl Trace {
    /// Nothing in force.
    pub fn new() -> Self {
        Trace { sheet: None, next: None, desk: None, shelf: Vec::new() }
    }

    /// Follows one command.
    pub fn answer(&mut self, line: &[u8]) -> Answered {
        let words: Vec<&[u8]> = line.split(|byte| *byte == b' ').collect();
        match words[..] {
            [b"sheet", text] => Some(self.sheet(&hex(text)?)),
            [b"check", bytes] => self.check(&hex(bytes)?),
            [b"store", b"orders", depth, room] => self.store(number(depth)?, number(room)?),
            [b"store", b"panel"] => {
                self.next = Some(Next::Panel);
                Some(Ok("store 64".into()))
            }
            [b"open", receiver, channel, version, ref ids @ ..] => {
                number(receiver)?;
                let (channel, version) = (number(channel)?.try_into().ok()?, number(version)?.try_into().ok()?);
                let ids: Option<Vec<u64>> = ids.iter().map(|id| number(id)).collect();
                self.open(channel, version, &ids?)
            }
            [b"shelf", length] => self.lend(number(length)?),
            [b"poke", at, bytes] => self.poke(number(at)?, &hex(bytes)?),
            [b"inc", bytes] => self.incremental(&hex(bytes)?),
            [b"snap", bytes] => self.snapshot(&hex(bytes)?),
            [b"join"] => Some(either!(self.desk.as_mut()?, receiver => receiver.join()).map(|_| "joined".into())),
            [b"leave"] => Some(either!(self.desk.as_mut()?, receiver => receiver.leave()).map(|_| "left".into())),
            [b"ask", id] => self.ask(number(id)?),
            [b"bids", id] => self.side("bids", 0, number(id)?),
            [b"offers", id] => self.side("offers", 1, number(id)?),
            [b"stats", id] => self.stats(number(id)?),
            [b"shelfsum"] => self.desk.as_ref().map(|_| Ok(format!("shelfsum {:016x}", digest(&self.shelf)))),
            _ => None,
        }
    }

    /// Reads a sheet.
    fn sheet(&mut self, text: &[u8]) -> Result<String, Refusal> {
        let sheet = sheet_text::read(text)?;
        let count = sheet.templates.len();
        self.sheet = Some(sheet);
        Ok(format!("sheet {count}"))
    }

    /// Checks a packet by the sheet in force and lists its messages.
    fn check(&self, bytes: &[u8]) -> Answered {
        let sheet = self.sheet.as_ref()?;
        if let Err(refusal) = check(sheet, bytes, &mut Spots::new()) {
            return Some(Err(refusal));
        }
        let mut answer = format!("packet {} {} {}", packet::channel(bytes), packet::version(bytes), packet::number(bytes));
        let mut start = HEADER;
        while let Ok((length, template)) = message(sheet, &bytes[start..], start) {
            let kind = if template == UNLISTED { "other" } else { sheet.templates[template as usize].kind.word() };
            answer += &format!(" {start}:{kind}");
            start += length;
        }
        Some(Ok(answer))
    }

    /// Names the order store of the next opening.
    fn store(&mut self, depth: u64, room: u64) -> Answered {
        Some(Orders::open(depth, room).map(|orders| {
            self.next = Some(Next::Orders(depth, room));
            format!("store {}", orders.slots())
        }))
    }

    /// Opens a receiver over the sheet and the store in force.
    fn open(&mut self, channel: u8, version: u16, ids: &[u64]) -> Answered {
        let sheet = self.sheet.clone()?;
        let desk = match *self.next.as_ref()? {
            Next::Orders(depth, room) => Orders::open(depth, room).and_then(|orders| {
                let watch = check_opening(ids, version, orders.slots())?;
                Ok(Desk::Orders(Receiver::open(orders, sheet, channel, version, watch)))
            }),
            Next::Panel => check_opening(ids, version, 64)
                .map(|watch| Desk::Panel(Receiver::open(Panel::open(&sheet), sheet, channel, version, watch))),
        };
        Some(desk.map(|desk| {
            self.desk = Some(desk);
            self.next = None;
            self.shelf = vec![0; SHELF];
            "opened".into()
        }))
    }

    /// Lends a shelf of another length.
    fn lend(&mut self, length: u64) -> Answered {
        self.desk.as_ref().filter(|_| length <= LONGEST as u64)?;
        self.shelf.resize(length as usize, 0);
        Some(Ok(format!("shelf {length}")))
    }

    /// Writes bytes into the shelf.
    fn poke(&mut self, at: u64, bytes: &[u8]) -> Answered {
        self.desk.as_ref()?;
        let end = at.checked_add(bytes.len() as u64).filter(|end| *end <= self.shelf.len() as u64)?;
        self.shelf[at as usize..end as usize].copy_from_slice(bytes);
        Some(Ok("poked".into()))
    }

    /// An incremental packet.
    fn incremental(&mut self, bytes: &[u8]) -> Answered {
        let shelf = &mut self.shelf;
        Some(either!(self.desk.as_mut()?, receiver => receiver.incremental(shelf, bytes)).map(|answer| told(answer, false)))
    }

    /// A snapshot packet.
    fn snapshot(&mut self, bytes: &[u8]) -> Answered {
        let shelf = &self.shelf;
        Some(either!(self.desk.as_mut()?, receiver => receiver.snapshot(shelf, bytes)).map(|answer| told(answer, true)))
    }

    /// How a book stands.
    fn ask(&self, id: u64) -> Answered {
        either!(self.desk.as_ref()?, receiver => {
            let heard = receiver.heard();
            Some(receiver.question(id).map(|mark| match mark {
                Mark::Stale => format!("stale 0 {heard}"),
                Mark::AsOf(as_of) if as_of == heard => format!("current {as_of} {heard}"),
                Mark::AsOf(as_of) => format!("recovering {as_of} {heard}"),
            }))
        })
    }

    /// The orders of a side.
    fn side(&self, word: &str, side: usize, id: u64) -> Answered {
        let Desk::Orders(receiver) = self.desk.as_ref()? else { return None };
        Some(receiver.slot(id).map(|slot| {
            let orders = receiver.store.side(slot, side);
            format!("{} {}{}", word, orders.len(), orders.iter().map(shown).collect::<String>())
        }))
    }

    /// The numbers of a panel.
    fn stats(&self, id: u64) -> Answered {
        let Desk::Panel(receiver) = self.desk.as_ref()? else { return None };
        Some(receiver.slot(id).map(|slot| {
            let values = receiver.store.values(slot).iter().map(|value| value.map_or("none".into(), |value| value.to_string()));
            let shown = receiver.sheet.stats().into_iter().zip(values).map(|(id, value)| format!(" {id}={value}"));
            format!("stats{}", shown.collect::<String>())
        }))
    }
}

impl Default for Trace {
    fn default() -> Self {
        Trace::new()
    }
}
