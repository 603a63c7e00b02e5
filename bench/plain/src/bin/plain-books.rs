//! Rows of the watched books from a capture, as CSV.

use std::error::Error;
use std::fmt::Write as _;
use std::fs::File;
use std::io::{self, Write};

use plain::capture::{Capture, Destination};
use plain::noting::Noting;
use plain::orders::{Order, Orders, NO_PRICE};
use plain::receiver::{check_opening, Answer, Mark, Receiver, SHELF};
use plain::sheet::Sheet;
use plain::sheet_text;

const USAGE: &str = "usage: plain-books SHEET CAPTURE --channel N --version N --incremental IP:PORT[,IP:PORT] --snapshot IP:PORT --watch ID,.. [--depth D] [--out FILE]";
const HEAD: &str = "time,heard,instrument,mark,as_of,bid_price,bid_size,bid_orders,bid_total,offer_price,offer_size,offer_orders,offer_total,spread\n";
const BLOCK: usize = 1 << 16;

/// What one side of a book shows: the first order, how many there are, and their total size.
#[derive(Clone, Copy, PartialEq, Default)]
struct Side {
    price: Option<i64>,
    size: Option<u64>,
    orders: usize,
    total: u128,
}

/// What a row says of a book, besides how far it is.
#[derive(Clone, Copy, PartialEq)]
struct Figures {
    mark: &'static str,
    sides: Option<[Side; 2]>,
}

impl Side {
    /// The figures of a side's orders.
    fn of(orders: &[Order]) -> Self {
        let first = orders.first();
        Side {
            price: first.map(|order| order.price).filter(|price| *price != NO_PRICE),
            size: first.map(|order| order.size),
            orders: orders.len(),
            total: orders.iter().map(|order| order.size as u128).sum(),
        }
    }

    /// Writes the four fields of a side, each behind a comma.
    fn write(&self, out: &mut String) -> std::fmt::Result {
        write_some(out, self.price)?;
        write_some(out, self.size)?;
        write!(out, ",{},{}", self.orders, self.total)
    }
}

/// Writes a field behind a comma, empty where there is none.
fn write_some(out: &mut String, field: Option<impl std::fmt::Display>) -> std::fmt::Result {
    match field {
        Some(field) => write!(out, ",{field}"),
        None => write!(out, ","),
    }
}

/// The options that were given, by name.
fn option<'a>(words: &'a [String], name: &str) -> Result<&'a str, Box<dyn Error>> {
    let at = words.iter().position(|word| word == name).ok_or(USAGE)?;
    Ok(words.get(at + 1).ok_or(USAGE)?)
}

/// An address and port.
fn destination(word: &str) -> Result<Destination, Box<dyn Error>> {
    let address: std::net::SocketAddrV4 = word.parse()?;
    Ok(Destination { address: address.ip().octets(), port: address.port() })
}

/// The table that is being written.
struct Table {
    receiver: Receiver<Noting<Orders>>,
    ids: Vec<u64>,
    told: Vec<Option<Figures>>,
    signs: (u64, u64),
    text: String,
    out: Box<dyn Write>,
}

impl Table {
    /// What a book shows now.
    fn figures(&self, slot: usize) -> Figures {
        let orders = &self.receiver.store.store;
        let sides = || Some([Side::of(orders.side(slot, 0)), Side::of(orders.side(slot, 1))]);
        match (self.signs.0 >> slot & 1, self.signs.1 >> slot & 1) {
            (1, _) => Figures { mark: "current", sides: sides() },
            (_, 1) => Figures { mark: "recovering", sides: sides() },
            _ => Figures { mark: "stale", sides: None },
        }
    }

    /// Writes a row for each book whose mark or figures changed.
    fn tell(&mut self, time: u64) -> Result<(), Box<dyn Error>> {
        let signs = self.receiver.signs();
        let mut changed = (signs.0 ^ self.signs.0) | (signs.1 ^ self.signs.1) | std::mem::take(&mut self.receiver.store.touched);
        self.signs = signs;
        while changed != 0 {
            let slot = changed.trailing_zeros() as usize;
            changed &= changed - 1;
            let figures = self.figures(slot);
            if self.told[slot] != Some(figures) {
                self.told[slot] = Some(figures);
                self.row(time, slot, &figures)?;
            }
        }
        if self.text.len() > BLOCK {
            self.out.write_all(self.text.as_bytes())?;
            self.text.clear();
        }
        Ok(())
    }

    /// Writes one row.
    fn row(&mut self, time: u64, slot: usize, figures: &Figures) -> Result<(), Box<dyn Error>> {
        let text = &mut self.text;
        write!(text, "{time},{},{},{}", self.receiver.heard(), self.ids[slot], figures.mark)?;
        match (self.receiver.question(self.ids[slot]), figures.sides) {
            (Ok(Mark::AsOf(as_of)), Some([bids, offers])) => {
                write!(text, ",{as_of}")?;
                bids.write(text)?;
                offers.write(text)?;
                let spread = bids.price.zip(offers.price).map(|(bid, offer)| offer as i128 - bid as i128);
                write_some(text, spread)?;
            }
            _ => text.push_str(",,,,,,,,,,"),
        }
        text.push('\n');
        Ok(())
    }
}

/// The table that the options ask for, with its first line.
fn open(sheet: Sheet, words: &[String]) -> Result<Table, Box<dyn Error>> {
    let ids: Vec<u64> = option(words, "--watch")?.split(',').map(str::parse).collect::<Result<_, _>>()?;
    let depth = option(words, "--depth").map_or(Ok(1_024), str::parse)?;
    let orders = Orders::open(depth, 130 * depth).map_err(|refusal| refusal.to_string())?;
    let version = option(words, "--version")?.parse()?;
    let watch = check_opening(&ids, version, 64).map_err(|refusal| refusal.to_string())?;
    let store = Noting { store: orders, touched: 0 };
    let mut receiver = Receiver::open(store, sheet, option(words, "--channel")?.parse()?, version, watch);
    receiver.join().map_err(|refusal| refusal.to_string())?;
    let out: Box<dyn Write> = match option(words, "--out") {
        Ok(file) => Box::new(File::create(file)?),
        Err(_) => Box::new(io::stdout().lock()),
    };
    Ok(Table { receiver, told: vec![None; ids.len()], ids, signs: (0, 0), text: HEAD.into(), out })
}

fn main() -> Result<(), Box<dyn Error>> {
    let words: Vec<String> = std::env::args().skip(1).collect();
    let [sheet, path, words @ ..] = &words[..] else { return Err(USAGE.into()) };
    let sheet = sheet_text::read(&std::fs::read(sheet)?).map_err(|refusal| refusal.to_string())?;
    let feeds: Vec<Destination> = option(words, "--incremental")?.split(',').map(destination).collect::<Result<_, _>>()?;
    let snapshot = destination(option(words, "--snapshot")?)?;
    let mut table = open(sheet, words)?;
    let (mut capture, mut shelf) = (Capture::open(path)?, vec![0; SHELF]);
    while let Some(found) = capture.next()? {
        let Some(datagram) = found else { continue };
        let answer = if feeds.contains(&datagram.destination) {
            table.receiver.incremental(&mut shelf, datagram.payload)
        } else if datagram.destination == snapshot {
            table.receiver.snapshot(&shelf, datagram.payload)
        } else {
            continue;
        };
        if let Ok(Answer::Taken(_)) = answer {
            table.tell(datagram.time)?;
        }
    }
    Ok(table.out.write_all(table.text.as_bytes())?)
}
