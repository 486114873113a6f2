//! Writes the events of a track, with the rules' freedoms.

use super::draft::{Chunk, Event};
use super::facts::{Fact, Facts};
use crate::generate::Random;

/// The metas whose length is fixed.
pub const FIXED: [(u8, usize); 4] = [(0x2f, 0), (0x51, 3), (0x58, 4), (0x59, 2)];

/// Bytes that mean something in many places.
pub const SIGNIFICANT: [u8; 24] = [
    0x00, 0x01, 0x02, 0x03, 0x04, 0x05, 0x07, 0x08, 0x20, 0x2f, 0x40, 0x51, 0x58, 0x59, 0x7f, 0x80,
    0x81, 0x90, 0xc0, 0xe0, 0xf0, 0xf1, 0xf7, 0xff,
];

pub struct Writer<'a> {
    pub random: &'a mut Random,
    pub facts: Facts,
    /// One number in so many is padded.
    padded: u64,
    /// Of four statuses that may be left out, so many are.
    left_out: u64,
    /// The status that is in force.
    running: u8,
}

impl<'a> Writer<'a> {
    pub fn new(random: &'a mut Random) -> Self {
        let padded = random.pick(&[2, 8, 1_000_000, 1_000_000]);
        let left_out = random.pick(&[0, 2, 4, 4]);
        Self::with(random, padded, left_out)
    }

    pub fn with(random: &'a mut Random, padded: u64, left_out: u64) -> Self {
        Self {
            random,
            facts: Facts::default(),
            padded,
            left_out,
            running: 0,
        }
    }

    pub fn track(&mut self, events: &[(u32, u32)]) -> Chunk {
        self.running = 0;
        let events = events.iter().map(|&(delta, word)| self.event(delta, word));
        Chunk::of_events(events.collect())
    }

    pub fn event(&mut self, delta: u32, word: u32) -> Event {
        let mut bytes = Vec::with_capacity(16);
        self.number(&mut bytes, delta, Fact::PaddedDelta);
        self.facts.note(Fact::LargeDelta, delta >= 1 << 21);
        let [kind, a, b, c] = word.to_be_bytes();
        match kind {
            8..=14 => self.message(&mut bytes, kind << 4 | a, [b, c]),
            1 => self.system_event(&mut bytes),
            2 => self.meta(&mut bytes, 0x51, &[a, b, c]),
            3 => {
                let dropped = [self.random.byte(), self.random.byte()];
                self.meta(&mut bytes, 0x58, &[a, b, dropped[0], dropped[1]]);
            }
            4 => self.meta(&mut bytes, 0x59, &[a, b]),
            5 => {
                self.facts.note(Fact::Marker, true);
                self.meta(&mut bytes, 0x7f, &[b"ACRD1", &[a, b][..]].concat());
            }
            6 => self.meta(&mut bytes, 0x2f, &[]),
            _ => self.other_meta(&mut bytes),
        }
        Event { delta, word, bytes }
    }

    /// A number, padded now and then.
    fn number(&mut self, bytes: &mut Vec<u8>, value: u32, padding: Fact) {
        let shortest = (1..4).find(|&width| value >> (7 * width) == 0).unwrap_or(4);
        let width = match self.random.once_in(self.padded) {
            true => self.random.between(shortest, 4),
            false => shortest,
        };
        self.facts.note(padding, width > shortest);
        put_number(bytes, value, width as u32);
    }

    fn message(&mut self, bytes: &mut Vec<u8>, status: u8, data: [u8; 2]) {
        let may = status == self.running;
        let leaves = may && self.random.below(4) < self.left_out;
        self.facts.note(Fact::RunningStatus, leaves);
        self.facts.note(Fact::StatusRepeated, may && !leaves);
        if !leaves {
            bytes.push(status);
        }
        self.running = status;
        bytes.extend(&data[..data_bytes(status)]);
    }

    fn system_event(&mut self, bytes: &mut Vec<u8>) {
        self.running = 0;
        bytes.push(self.random.pick(&[0xf0, 0xf7]));
        let content = content(self.random);
        self.facts.note(Fact::SystemEvent, true);
        self.facts.note(Fact::EmptySystemEvent, content.is_empty());
        self.counted(bytes, &content);
    }

    fn meta(&mut self, bytes: &mut Vec<u8>, kind: u8, content: &[u8]) {
        self.running = 0;
        bytes.extend([0xff, kind]);
        self.counted(bytes, content);
    }

    fn counted(&mut self, bytes: &mut Vec<u8>, content: &[u8]) {
        self.number(bytes, content.len() as u32, Fact::PaddedLength);
        bytes.extend(content);
    }

    /// A meta of which only that it is there is taken.
    fn other_meta(&mut self, bytes: &mut Vec<u8>) {
        let (kind, content) = match self.random.once_in(4) {
            true => self.near_marker(),
            false => (self.random.data(), content(self.random)),
        };
        let fixed = FIXED.iter().any(|fixed| fixed.0 == kind);
        let kind = if fixed { kind ^ 0x40 } else { kind };
        self.facts.note(Fact::OtherMeta, true);
        self.facts.note(Fact::EmptyMeta, content.is_empty());
        self.facts.note(Fact::LongMeta, content.len() > 127);
        self.meta(bytes, kind, &content);
    }

    /// What is a marker but for its length, a letter or its type.
    fn near_marker(&mut self) -> (u8, Vec<u8>) {
        self.facts.note(Fact::NearMarker, true);
        let mut content = b"ACRD1\x00\x01".to_vec();
        match self.random.below(4) {
            0 => content.resize(self.random.pick(&[0, 1, 4, 5, 6, 8, 9, 14]), 0x31),
            1 => content[self.random.below(5) as usize] ^= 1 << self.random.below(8),
            2 => content.rotate_right(1),
            _ => return (self.random.pick(&[0x00, 0x01, 0x7e]), content),
        }
        (0x7f, content)
    }
}

/// A number in so many bytes.
pub fn put_number(bytes: &mut Vec<u8>, value: u32, width: u32) {
    let digit = |place: u32| (value >> (7 * place) & 127) as u8;
    bytes.extend((1..width).rev().map(|place| digit(place) | 128));
    bytes.push(digit(0));
}

pub fn data_bytes(status: u8) -> usize {
    match status >> 4 {
        12 | 13 => 1,
        _ => 2,
    }
}

/// Bytes of a meta or system event, few of them more than eight.
fn content(random: &mut Random) -> Vec<u8> {
    let length = match random.below(2_000) {
        0 => random.between(16_380, 16_390),
        1..20 => random.between(120, 300),
        20..200 => random.below(40),
        _ => random.below(9),
    };
    some_bytes(random, length)
}

/// Any bytes, or significant ones.
pub fn some_bytes(random: &mut Random, length: u64) -> Vec<u8> {
    match random.once_in(3) {
        true => (0..length).map(|_| random.byte()).collect(),
        false => (0..length).map(|_| random.pick(&SIGNIFICANT)).collect(),
    }
}
