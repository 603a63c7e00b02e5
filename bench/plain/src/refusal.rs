//! What a refused call gives: a number, a layer and a place.

use std::fmt;

#[derive(Clone, Copy, PartialEq, Eq, Debug)]
pub enum Layer {
    Frame,
    Stream,
    Sheet,
    Store,
}

#[derive(Clone, Copy, PartialEq, Eq, Debug)]
pub struct Refusal {
    pub number: u8,
    pub layer: Layer,
    pub place: u64,
}

const WORDS: [&str; 20] = [
    "size", "empty", "torn", "length", "encoding", "schema", "block", "group", "channel", "version", "number", "late", "join",
    "shelf", "instrument", "opening", "sheet", "slot", "unfit", "owed",
];

impl Refusal {
    /// A refusal of the frame layer.
    pub fn frame(number: u8, place: usize) -> Self {
        Refusal { number, layer: Layer::Frame, place: place as u64 }
    }

    /// A refusal of the stream layer.
    pub fn stream(number: u8, place: usize) -> Self {
        Refusal { number, layer: Layer::Stream, place: place as u64 }
    }

    /// The refusal's word.
    pub fn word(&self) -> &'static str {
        WORDS[self.number as usize - 1]
    }
}

impl fmt::Display for Refusal {
    fn fmt(&self, out: &mut fmt::Formatter) -> fmt::Result {
        let layer = match self.layer {
            Layer::Frame => "frame",
            Layer::Stream => "stream",
            Layer::Sheet => "sheet",
            Layer::Store => "store",
        };
        write!(out, "{} {} {} {}", self.number, self.word(), layer, self.place)
    }
}
