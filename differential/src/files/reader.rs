//! A second reader of files, a machine that takes one byte at a time. Written from the rules alone.

use crate::piece::{Piece, word};

pub const MOST_BYTES: usize = 67_108_864;
pub const MOST_EVENTS: usize = 500_000;
const BROKEN: u32 = 12;

/// The piece of a file, or the number that turns it away.
pub fn read(bytes: &[u8]) -> Result<Piece, u32> {
    if bytes.len() > MOST_BYTES {
        return Err(11);
    }
    let mut machine = Machine::default();
    for &byte in bytes {
        machine.step(byte)?;
    }
    machine.end()
}

/// What the next byte is. A number tells how many bytes of the same were before it.
#[derive(Clone, Copy, PartialEq, Eq)]
enum State {
    Id(usize),
    Length(usize),
    Header(usize),
    /// Of no account: behind the header's six bytes, or in an unknown chunk.
    Passed,
    Delta(usize),
    /// Behind a delta: a status, or data under running status.
    Opening,
    FirstData,
    SecondData,
    MetaType,
    /// Of the length of a meta or system event.
    Long(usize),
    /// Of the bytes that such a length counts.
    Counted(u32),
    /// Behind End of Track.
    Ended,
}

#[derive(Clone, Copy, PartialEq, Eq)]
enum Chunk {
    Header,
    Track,
    Unknown,
}

struct Machine {
    state: State,
    chunk: Chunk,
    /// The id of the chunk.
    id: [u8; 4],
    /// How many bytes the chunk still has.
    left: u32,
    begun: bool,
    header: [u8; 6],
    /// The number that is being read.
    number: u32,
    delta: u32,
    /// The status that a data byte would be under; 0 where none is in force.
    running: u8,
    /// The status of the event that is being read, and a meta's type.
    status: u8,
    kind: u8,
    first: u8,
    /// The front of a meta's bytes.
    front: [u8; 7],
    /// All events of the file, of which the first so many are kept.
    events: usize,
    in_track: u32,
    bad_word: bool,
    counts: Vec<u32>,
    deltas: Vec<u32>,
    words: Vec<u32>,
}

impl Default for Machine {
    fn default() -> Self {
        Self {
            state: State::Id(0),
            chunk: Chunk::Unknown,
            id: [0; 4],
            left: 0,
            begun: false,
            header: [0; 6],
            number: 0,
            delta: 0,
            running: 0,
            status: 0,
            kind: 0,
            first: 0,
            front: [0; 7],
            events: 0,
            in_track: 0,
            bad_word: false,
            counts: Vec::new(),
            deltas: Vec::new(),
            words: Vec::new(),
        }
    }
}

impl Machine {
    fn step(&mut self, byte: u8) -> Result<(), u32> {
        match self.state {
            State::Id(before) => self.id(before, byte),
            State::Length(before) => self.length(before, byte),
            _ => {
                self.state = self.inside(byte)?;
                self.left -= 1;
                self.perhaps_over()
            }
        }
    }

    fn id(&mut self, before: usize, byte: u8) -> Result<(), u32> {
        self.id[before] = byte;
        if before < 3 {
            self.state = State::Id(before + 1);
            return Ok(());
        }
        self.chunk = match &self.id {
            b"MThd" => Chunk::Header,
            b"MTrk" => Chunk::Track,
            _ => Chunk::Unknown,
        };
        // The first chunk is the header, and no other is.
        if self.begun == (self.chunk == Chunk::Header) {
            return Err(BROKEN);
        }
        (self.begun, self.left) = (true, 0);
        self.state = State::Length(0);
        Ok(())
    }

    fn length(&mut self, before: usize, byte: u8) -> Result<(), u32> {
        self.left = self.left << 8 | u32::from(byte);
        if before < 3 {
            self.state = State::Length(before + 1);
            return Ok(());
        }
        self.state = match self.chunk {
            Chunk::Header if self.left < 6 => return Err(BROKEN),
            Chunk::Header => State::Header(0),
            Chunk::Unknown => State::Passed,
            Chunk::Track => {
                (self.running, self.in_track) = (0, 0);
                State::Delta(0)
            }
        };
        self.perhaps_over()
    }

    /// Leaves the chunk where it has no byte left.
    fn perhaps_over(&mut self) -> Result<(), u32> {
        if self.left > 0 {
            return Ok(());
        }
        match self.chunk {
            Chunk::Header if self.field(0) > 1 => return Err(13),
            Chunk::Track if self.state != State::Ended => return Err(BROKEN),
            Chunk::Track => self.counts.push(self.in_track),
            _ => {}
        }
        self.state = State::Id(0);
        Ok(())
    }

    /// Format, count of tracks, division.
    fn field(&self, index: usize) -> u32 {
        u32::from(u16::from_be_bytes([
            self.header[2 * index],
            self.header[2 * index + 1],
        ]))
    }

    /// A byte inside a chunk, and what follows it.
    fn inside(&mut self, byte: u8) -> Result<State, u32> {
        match self.state {
            State::Header(before) => {
                self.header[before] = byte;
                Ok(match before {
                    5 => State::Passed,
                    _ => State::Header(before + 1),
                })
            }
            State::Delta(before) => Ok(match self.number(before, byte)? {
                false => State::Delta(before + 1),
                true => {
                    self.delta = self.number;
                    State::Opening
                }
            }),
            State::Opening => self.opening(byte),
            State::FirstData => self.first_data(byte),
            State::SecondData if byte < 128 => Ok(self.message(byte)),
            State::MetaType if byte < 128 => {
                self.kind = byte;
                Ok(State::Long(0))
            }
            State::Long(before) => match self.number(before, byte)? {
                false => Ok(State::Long(before + 1)),
                true => self.counted(),
            },
            State::Counted(before) => Ok(self.within(before, byte)),
            State::Passed => Ok(State::Passed),
            _ => Err(BROKEN),
        }
    }

    /// A byte of a number, and whether it is the last. There is no fifth.
    fn number(&mut self, before: usize, byte: u8) -> Result<bool, u32> {
        let so_far = if before == 0 { 0 } else { self.number };
        self.number = so_far << 7 | u32::from(byte & 127);
        match byte < 128 {
            true => Ok(true),
            false if before == 3 => Err(BROKEN),
            false => Ok(false),
        }
    }

    fn opening(&mut self, byte: u8) -> Result<State, u32> {
        self.status = if byte < 128 { self.running } else { byte };
        self.running = if self.status < 0xf0 { self.status } else { 0 };
        match self.status {
            0 => Err(BROKEN),
            _ if byte < 128 => self.first_data(byte),
            0x80..0xf0 => Ok(State::FirstData),
            0xf0 | 0xf7 => Ok(State::Long(0)),
            0xff => Ok(State::MetaType),
            _ => Err(BROKEN),
        }
    }

    fn first_data(&mut self, byte: u8) -> Result<State, u32> {
        self.first = byte;
        match self.status >> 4 {
            _ if byte > 127 => Err(BROKEN),
            12 | 13 => Ok(self.message(0)),
            _ => Ok(State::SecondData),
        }
    }

    fn message(&mut self, second: u8) -> State {
        let (kind, channel) = (self.status >> 4, self.status & 15);
        self.event(word(kind, channel, self.first, second))
    }

    /// A length is read: the bytes that it counts follow, if there are any.
    fn counted(&mut self) -> Result<State, u32> {
        let fixed = match (self.status, self.kind) {
            (0xff, 0x2f) => Some(0),
            (0xff, 0x51) => Some(3),
            (0xff, 0x58) => Some(4),
            (0xff, 0x59) => Some(2),
            _ => None,
        };
        match fixed {
            Some(length) if length != self.number => Err(BROKEN),
            _ if self.number == 0 => Ok(self.whole()),
            _ => Ok(State::Counted(0)),
        }
    }

    fn within(&mut self, before: u32, byte: u8) -> State {
        if let Some(place) = self.front.get_mut(before as usize) {
            *place = byte;
        }
        match before + 1 == self.number {
            true => self.whole(),
            false => State::Counted(before + 1),
        }
    }

    /// A meta or system event is whole.
    fn whole(&mut self) -> State {
        let [a, b, c, ..] = self.front;
        if self.status != 0xff {
            return self.event(word(1, 0, 0, 0));
        }
        match (self.kind, self.number) {
            (0x2f, _) => {
                self.event(word(6, 0, 0, 0));
                State::Ended
            }
            (0x51, _) => self.event(word(2, a, b, c)),
            (0x58, _) => {
                self.bad_word |= b > 7;
                self.event(word(3, a, b, 0))
            }
            (0x59, _) => {
                self.bad_word |= b > 1;
                self.event(word(4, a, b, 0))
            }
            (0x7f, 7) if self.front.starts_with(b"ACRD1") => {
                self.event(word(5, self.front[5], self.front[6], 0))
            }
            _ => self.event(0),
        }
    }

    fn event(&mut self, word: u32) -> State {
        if self.events < MOST_EVENTS {
            self.deltas.push(self.delta);
            self.words.push(word);
        }
        self.events += 1;
        self.in_track += 1;
        State::Delta(0)
    }

    /// The file is over.
    fn end(self) -> Result<Piece, u32> {
        let [format, count, division] = [0, 1, 2].map(|index| self.field(index));
        let tracks = self.counts.len();
        if !self.begun || self.state != State::Id(0) || tracks != count as usize {
            return Err(BROKEN);
        }
        if format == 0 && tracks != 1 {
            return Err(BROKEN);
        }
        match division {
            0 => Err(2),
            _ if self.events > MOST_EVENTS => Err(3),
            _ if self.bad_word => Err(5),
            _ => Ok(Piece {
                sizes: [vec![division, count], self.counts].concat(),
                deltas: self.deltas,
                words: self.words,
            }),
        }
    }
}
