//! Measures the receiver on a file of calls, or tells a digest of all that it answers and keeps.

use std::error::Error;
use std::time::Instant;

use plain::calls::{poke, Call, Calls};
use plain::orders::Orders;
use plain::packet::{check, Spots, HEAD};
use plain::receiver::{check_opening, Answer, Mark, Receiver, SHELF};
use plain::refusal::Refusal;
use plain::sheet::{Name, Sheet};
use plain::sheet_text;
use plain::trace::digest;

const USAGE: &str = "usage: plain-speed feed|walk|digest SHEET CALLS DEPTH PASSES ID..";
/// The books go into the digest once in so many calls.
const SELDOM: u64 = 64;

/// One word more in a digest.
fn mix(hash: u64, word: u64) -> u64 {
    (hash ^ word).wrapping_mul(0x100_0000_01b3)
}

/// An answer as a number.
fn code(answer: Result<Answer, Refusal>) -> u64 {
    match answer {
        Ok(Answer::Taken(adoptions)) => 1_000 + adoptions as u64,
        Ok(Answer::Repeat) => 1,
        Err(refusal) => (refusal.number as u64) << 32 | refusal.place,
    }
}

/// Performs a call; its answer as a number.
#[inline(always)]
fn perform(receiver: &mut Receiver<Orders>, shelf: &mut [u8], call: Call) -> u64 {
    let plain = |_| Answer::Taken(0);
    match call {
        Call::Incremental(bytes) => code(receiver.incremental(shelf, bytes)),
        Call::Snapshot(bytes) => code(receiver.snapshot(shelf, bytes)),
        Call::Join => code(receiver.join().map(plain)),
        Call::Leave => code(receiver.leave().map(plain)),
        Call::Poke(bytes) => {
            poke(shelf, bytes);
            0
        }
    }
}

/// The sum of all answers.
fn feed(receiver: &mut Receiver<Orders>, shelf: &mut [u8], input: &[u8]) -> u64 {
    Calls { rest: input }.fold(0u64, |sum, call| sum.wrapping_add(perform(receiver, shelf, call)))
}

/// Checks every packet and walks over its messages; the sum of their instruments.
fn walk(sheet: &Sheet, spots: &mut Spots, input: &[u8]) -> u64 {
    let mut sum = 0u64;
    for call in (Calls { rest: input }) {
        let (Call::Incremental(bytes) | Call::Snapshot(bytes)) = call else { continue };
        if check(sheet, bytes, spots).is_ok() {
            for spot in spots.list() {
                let template = &sheet.templates[spot.template as usize];
                sum = sum.wrapping_add(template.read(Name::Security, &bytes[spot.start as usize + HEAD..]));
            }
        }
    }
    sum
}

/// How the books of the watched instruments stand, in a digest.
fn mix_marks(receiver: &Receiver<Orders>, ids: &[u64], mut hash: u64) -> u64 {
    for id in ids {
        let (sign, number) = match receiver.question(*id) {
            Ok(Mark::AsOf(number)) if number == receiver.heard() => (2, number),
            Ok(Mark::AsOf(number)) => (1, number),
            _ => (0, 0),
        };
        hash = mix(mix(mix(hash, sign), number), receiver.heard());
    }
    hash
}

/// The books of the watched instruments, in a digest.
fn mix_books(receiver: &Receiver<Orders>, ids: &[u64], mut hash: u64) -> u64 {
    for slot in 0..ids.len() {
        for side in 0..2 {
            let orders = receiver.store.side(slot, side);
            hash = mix(hash, orders.len() as u64);
            for order in orders {
                hash = mix(mix(mix(mix(hash, order.price as u64), order.size), order.oid), order.firm as u64);
            }
        }
    }
    hash
}

/// A digest of every answer and mark, of the books now and then and at the end, and of the shelf.
fn digest_all(receiver: &mut Receiver<Orders>, shelf: &mut [u8], input: &[u8], ids: &[u64]) -> u64 {
    let mut hash = 0;
    let mut count = 0;
    for call in (Calls { rest: input }) {
        hash = mix(hash, perform(receiver, shelf, call));
        hash = mix_marks(receiver, ids, hash);
        count += 1;
        if count % SELDOM == 0 {
            hash = mix_books(receiver, ids, hash);
        }
    }
    mix(mix_books(receiver, ids, hash), digest(shelf))
}

fn main() -> Result<(), Box<dyn Error>> {
    let words: Vec<String> = std::env::args().skip(1).collect();
    let [mode, sheet, calls, depth, passes, ids @ ..] = &words[..] else { return Err(USAGE.into()) };
    let sheet = sheet_text::read(&std::fs::read(sheet)?).map_err(|refusal| refusal.to_string())?;
    let input = std::fs::read(calls)?;
    let ids: Vec<u64> = ids.iter().map(|id| id.parse()).collect::<Result<_, _>>()?;
    let depth = depth.parse()?;
    let orders = Orders::open(depth, 130 * depth).map_err(|refusal| refusal.to_string())?;
    let watch = check_opening(&ids, 1, 64).map_err(|refusal| refusal.to_string())?;
    let mut receiver = Receiver::open(orders, sheet.clone(), 55, 1, watch);
    let mut shelf = vec![0; SHELF];
    let mut spots = Spots::new();
    for _ in 0..passes.parse()? {
        receiver.restart();
        let start = Instant::now();
        let sum = match mode.as_str() {
            "feed" => feed(&mut receiver, &mut shelf, &input),
            "walk" => walk(&sheet, &mut spots, &input),
            "digest" => digest_all(&mut receiver, &mut shelf, &input, &ids),
            _ => return Err(USAGE.into()),
        };
        match mode.as_str() {
            "digest" => println!("digest {sum:016x}"),
            _ => println!("{} {sum:016x}", start.elapsed().as_nanos()),
        }
    }
    Ok(())
}
