//! Classic pcap files, read through a window: UDP datagrams over IPv4, behind Ethernet or raw.

use std::fs::File;
use std::io::{self, Read};

const BLOCK: usize = 1 << 20;
const LONGEST: usize = 262_144;

/// An address and a port.
#[derive(Clone, Copy, PartialEq, Eq, Debug)]
pub struct Destination {
    pub address: [u8; 4],
    pub port: u16,
}

/// A datagram: when it was captured, in nanoseconds since the epoch, where it went, and its payload.
pub struct Datagram<'a> {
    pub time: u64,
    pub destination: Destination,
    pub payload: &'a [u8],
}

#[derive(Clone, Copy)]
struct Format {
    swapped: bool,
    nanos: bool,
    ethernet: bool,
}

/// A capture file that is being read.
pub struct Capture {
    file: File,
    window: Vec<u8>,
    from: usize,
    to: usize,
    format: Format,
}

fn wrong(text: &str) -> io::Error {
    io::Error::new(io::ErrorKind::InvalidData, text)
}

impl Format {
    /// Four bytes of a header as a number.
    fn number(self, bytes: &[u8], at: usize) -> u32 {
        let four = bytes[at..at + 4].try_into().expect("four bytes");
        if self.swapped { u32::from_be_bytes(four) } else { u32::from_le_bytes(four) }
    }

    /// What the 24 bytes at the front of a file say.
    fn read(bytes: &[u8]) -> io::Result<Self> {
        let (swapped, nanos) = match bytes[..4] {
            [0xd4, 0xc3, 0xb2, 0xa1] => (false, false),
            [0x4d, 0x3c, 0xb2, 0xa1] => (false, true),
            [0xa1, 0xb2, 0xc3, 0xd4] => (true, false),
            [0xa1, 0xb2, 0x3c, 0x4d] => (true, true),
            _ => return Err(wrong("no capture file")),
        };
        let format = Format { swapped, nanos, ethernet: true };
        match format.number(bytes, 20) {
            1 => Ok(format),
            101 | 228 | 12 | 14 => Ok(Format { ethernet: false, ..format }),
            _ => Err(wrong("a link type that is not known")),
        }
    }
}

/// What is behind an Ethernet header and its tags, where that is IPv4.
fn behind_link(frame: &[u8]) -> Option<&[u8]> {
    let mut at = 12;
    loop {
        match *frame.get(at..at + 2)? {
            [0x81, 0x00] | [0x88, 0xa8] | [0x91, 0x00] => at += 4,
            [0x08, 0x00] => return frame.get(at + 2..),
            _ => return None,
        }
    }
}

/// The destination and payload of a whole UDP datagram.
fn udp(packet: &[u8]) -> Option<(Destination, &[u8])> {
    let header = (*packet.first()? & 15) as usize * 4;
    let total = u16::from_be_bytes(packet.get(2..4)?.try_into().ok()?) as usize;
    if packet[0] >> 4 != 4 || header < 20 || total < header + 8 || total > packet.len() || packet[9] != 17 {
        return None;
    }
    if (packet[6] & 0x3f) | packet[7] != 0 {
        return None;
    }
    let address = packet[16..20].try_into().ok()?;
    let datagram = &packet[header..total];
    let length = u16::from_be_bytes([datagram[4], datagram[5]]) as usize;
    let payload = datagram.get(8..length)?;
    Some((Destination { address, port: u16::from_be_bytes([datagram[2], datagram[3]]) }, payload))
}

impl Capture {
    /// Opens a file and reads its header.
    pub fn open(path: &str) -> io::Result<Self> {
        let format = Format { swapped: false, nanos: false, ethernet: true };
        let mut capture = Capture { file: File::open(path)?, window: vec![0; 2 * BLOCK], from: 0, to: 0, format };
        if !capture.want(24)? {
            return Err(wrong("the file ends inside its header"));
        }
        capture.format = Format::read(&capture.window[..24])?;
        capture.from = 24;
        Ok(capture)
    }

    /// Whether so many bytes are in the window, or can be read into it.
    fn want(&mut self, count: usize) -> io::Result<bool> {
        while self.to - self.from < count {
            if self.window.len() - self.to < BLOCK {
                self.window.copy_within(self.from..self.to, 0);
                self.to -= self.from;
                self.from = 0;
            }
            match self.file.read(&mut self.window[self.to..])? {
                0 => return Ok(false),
                read => self.to += read,
            }
        }
        Ok(true)
    }

    /// The next record, which is `Some(None)` where it holds no whole datagram; `None` at the end.
    #[allow(clippy::should_implement_trait)]
    pub fn next(&mut self) -> io::Result<Option<Option<Datagram<'_>>>> {
        if !self.want(16)? {
            return if self.from == self.to { Ok(None) } else { Err(wrong("the file ends inside a record")) };
        }
        let (format, head) = (self.format, &self.window[self.from..self.from + 16]);
        let [seconds, fraction, size, original] = [0, 4, 8, 12].map(|at| format.number(head, at));
        if size as usize > LONGEST || !self.want(16 + size as usize)? {
            return Err(wrong("a record that is cut or too long"));
        }
        let frame = &self.window[self.from + 16..self.from + 16 + size as usize];
        self.from += 16 + size as usize;
        let time = seconds as u64 * 1_000_000_000 + fraction as u64 * if format.nanos { 1 } else { 1_000 };
        let packet = if format.ethernet { behind_link(frame) } else { Some(frame) };
        let found = packet.filter(|_| size >= original).and_then(udp);
        Ok(Some(found.map(|(destination, payload)| Datagram { time, destination, payload })))
    }
}

#[cfg(test)]
mod tests {
    use super::*;

    #[test]
    fn a_datagram_is_found_behind_tags_and_options() {
        let mut frame = vec![0; 12];
        frame.extend([0x81, 0, 0, 5, 8, 0]);
        frame.extend([0x46, 0, 0, 34, 0, 0, 0x40, 0, 1, 17, 0, 0, 10, 0, 0, 1, 239, 1, 2, 3, 0, 0, 0, 0]);
        frame.extend([0, 7, 0x27, 0x47, 0, 10, 0, 0, 42, 43, 0, 0]);
        let (destination, payload) = behind_link(&frame).and_then(udp).unwrap();
        assert_eq!((destination, payload), (Destination { address: [239, 1, 2, 3], port: 10_055 }, &[42, 43][..]));
    }

    #[test]
    fn a_fragment_is_no_datagram() {
        let mut packet = vec![0x45, 0, 0, 28, 0, 0, 0x20, 0, 1, 17, 0, 0, 10, 0, 0, 1, 239, 1, 2, 3];
        packet.extend([0, 7, 0x27, 0x47, 0, 8, 0, 0]);
        assert!(udp(&packet).is_none());
    }
}
