//! A file while it is made, in parts that can be broken one by one.

use super::facts::{Fact, Facts};
use crate::piece::Piece;

pub const HEADER: [u8; 4] = *b"MThd";
pub const TRACK: [u8; 4] = *b"MTrk";

/// An event: its delta, its word, and its bytes in the file, the delta's among them.
pub struct Event {
    pub delta: u32,
    pub word: u32,
    pub bytes: Vec<u8>,
}

pub struct Chunk {
    pub id: [u8; 4],
    /// The length that is written, where it is not that of the bytes.
    pub claimed: Option<u32>,
    pub events: Vec<Event>,
    /// What stands behind the events: all of an unknown chunk.
    pub bytes: Vec<u8>,
}

impl Chunk {
    pub fn of_events(events: Vec<Event>) -> Self {
        Self {
            id: TRACK,
            claimed: None,
            events,
            bytes: Vec::new(),
        }
    }

    pub fn of_bytes(id: [u8; 4], bytes: Vec<u8>) -> Self {
        Self {
            id,
            claimed: None,
            events: Vec::new(),
            bytes,
        }
    }

    /// How many bytes stand behind the chunk's head.
    pub fn length(&self) -> usize {
        let events = self.events.iter().map(|event| event.bytes.len());
        events.sum::<usize>() + self.bytes.len()
    }

    fn put(&self, file: &mut Vec<u8>) {
        let length = self.length() as u32;
        head(file, self.id, self.claimed.unwrap_or(length));
        for event in &self.events {
            file.extend(&event.bytes);
        }
        file.extend(&self.bytes);
    }
}

/// A chunk's id and length.
pub fn head(file: &mut Vec<u8>, id: [u8; 4], length: u32) {
    file.extend(id);
    file.extend(length.to_be_bytes());
}

/// A header of six bytes.
pub fn header(format: u16, count: u16, division: u16) -> Vec<u8> {
    let mut file = Vec::new();
    head(&mut file, HEADER, 6);
    file.extend([format, count, division].map(u16::to_be_bytes).concat());
    file
}

/// A file of format 0 around the bytes of its track.
pub fn around(track: &[u8]) -> Vec<u8> {
    let mut file = header(0, 1, 96);
    head(&mut file, TRACK, track.len() as u32);
    file.extend(track);
    file
}

/// Where chunks begin in a file, as far as their lengths lead.
pub fn heads(file: &[u8]) -> Vec<usize> {
    let mut heads = Vec::new();
    let mut at = 0;
    while let Some(length) = file.get(at + 4..at + 8) {
        heads.push(at);
        let length = u32::from_be_bytes(length.try_into().expect("four bytes"));
        at += 8 + length as usize;
    }
    heads
}

pub struct Draft {
    pub format: u16,
    pub count: u16,
    pub division: u16,
    /// What the header has behind its six bytes.
    pub rest: Vec<u8>,
    pub chunks: Vec<Chunk>,
    pub facts: Facts,
}

impl Draft {
    pub fn bytes(&self) -> Vec<u8> {
        let mut file = header(self.format, self.count, self.division);
        file[7] += self.rest.len() as u8;
        file.extend(&self.rest);
        for chunk in &self.chunks {
            chunk.put(&mut file);
        }
        file
    }

    /// What the file is read as, if it is not broken.
    pub fn piece(&self) -> Piece {
        let tracks = self.chunks.iter().filter(|chunk| chunk.id == TRACK);
        let pairs = |track: &Chunk| {
            let events = track.events.iter();
            events.map(|event| (event.delta, event.word)).collect()
        };
        Piece::of_tracks(self.division.into(), &tracks.map(pairs).collect::<Vec<_>>())
    }

    /// How many bytes the header has, its head included.
    pub fn header_length(&self) -> usize {
        14 + self.rest.len()
    }

    pub fn note(&mut self, fact: Fact, holds: bool) {
        self.facts.note(fact, holds);
    }
}
