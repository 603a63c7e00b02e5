//! The rules of a packet, and the listed messages of one that keeps them.

use crate::refusal::Refusal;
use crate::sheet::{Kind, Name, Sheet, Template, UNLISTED};

pub const MOST: usize = 1_400;
pub const HEADER: usize = 16;
pub const HEAD: usize = 12;
/// The most messages that a packet can have.
const MESSAGES: usize = (MOST - HEADER) / HEAD;

/// Where a listed message starts, and the index of its template.
#[derive(Clone, Copy, Default)]
pub struct Spot {
    pub start: u16,
    pub template: u8,
}

/// The listed messages of a packet, in order.
pub struct Spots {
    spots: [Spot; MESSAGES],
    count: usize,
}

impl Spots {
    /// No messages.
    pub fn new() -> Self {
        Spots { spots: [Spot::default(); MESSAGES], count: 0 }
    }

    /// The messages.
    #[inline(always)]
    pub fn list(&self) -> &[Spot] {
        &self.spots[..self.count]
    }
}

impl Default for Spots {
    fn default() -> Self {
        Spots::new()
    }
}

#[inline(always)]
fn two(bytes: &[u8], at: usize) -> u16 {
    u16::from_le_bytes([bytes[at], bytes[at + 1]])
}

/// The packet's channel.
pub fn channel(bytes: &[u8]) -> u8 {
    bytes[0]
}

/// The packet's version.
pub fn version(bytes: &[u8]) -> u16 {
    two(bytes, 2)
}

/// The packet's number.
pub fn number(bytes: &[u8]) -> u32 {
    u32::from_le_bytes([bytes[4], bytes[5], bytes[6], bytes[7]])
}

/// Checks a packet by the sheet; of one that passes, `spots` are the listed messages.
pub fn check(sheet: &Sheet, bytes: &[u8], spots: &mut Spots) -> Result<(), Refusal> {
    if bytes.len() < HEADER || bytes.len() > MOST {
        return Err(Refusal::frame(1, 0));
    }
    if bytes.len() == HEADER {
        return Err(Refusal::frame(2, HEADER));
    }
    let mut count = 0;
    let mut start = HEADER;
    while start < bytes.len() {
        let (length, template) = message(sheet, &bytes[start..], start)?;
        if template != UNLISTED {
            spots.spots[count] = Spot { start: start as u16, template };
            count += 1;
        }
        start += length;
    }
    spots.count = count;
    Ok(())
}

/// The length and template of the message that these bytes begin with; `start` is its place in the packet.
#[inline(always)]
pub fn message(sheet: &Sheet, bytes: &[u8], start: usize) -> Result<(usize, u8), Refusal> {
    let Some(head) = bytes.first_chunk::<HEAD>() else { return Err(Refusal::frame(3, start)) };
    let length = two(head, 0) as usize;
    if length < HEAD || length > bytes.len() {
        return Err(Refusal::frame(4, start));
    }
    if two(head, 2) != 0xEB50 {
        return Err(Refusal::frame(5, start + 2));
    }
    if two(head, 8) != 2 {
        return Err(Refusal::frame(6, start + 8));
    }
    let template = sheet.find(two(head, 6));
    if template != UNLISTED {
        let block = two(head, 4) as usize;
        let listed = &sheet.templates[template as usize];
        if HEAD + block > length || block < listed.needs as usize {
            return Err(Refusal::frame(7, start + 4));
        }
        if listed.kind == Kind::Entries && group(listed, &bytes[HEAD + block..length]).is_none() {
            return Err(Refusal::frame(8, start + HEAD + block));
        }
    }
    Ok((length, template))
}

/// The entries of a group.
pub struct Group<'a> {
    pub entries: &'a [u8],
    pub length: usize,
    pub count: usize,
}

/// The group that the bytes behind a root block begin with, where it lies inside them and its entries hold their fields.
pub fn group<'a>(template: &Template, bytes: &'a [u8]) -> Option<Group<'a>> {
    let length = two(bytes.get(..2)?, 0) as usize;
    let wide = template.field(Name::Group).width == 2;
    let (count, head) = match *bytes {
        [_, _, low, high, ..] if wide => (u16::from_le_bytes([low, high]) as usize, 4),
        [_, _, low, ..] if !wide => (low as usize, 3),
        _ => return None,
    };
    let entries = &bytes[head..];
    (length >= template.entry_needs as usize && count * length <= entries.len()).then_some(Group { entries, length, count })
}
