//! Files that are read.

use super::draft::{Chunk, Draft, HEADER, TRACK};
use super::facts::Fact;
use super::writer::{Writer, some_bytes};
use crate::generate::{self, DIVISIONS, Random};
use crate::piece::word;

type Events = Vec<(u32, u32)>;

/// Format 0, or format 1 with a few tracks.
pub fn any(random: &mut Random) -> Draft {
    match random.once_in(3) {
        true => format_0(random),
        false => format_1(random),
    }
}

pub fn format_0(random: &mut Random) -> Draft {
    let track = track(random, 12);
    let division = division(random);
    draft(random, 0, division, &[track])
}

pub fn format_1(random: &mut Random) -> Draft {
    let tracks = random.between(1, 3);
    of_tracks(random, tracks, 8)
}

pub fn no_tracks(random: &mut Random) -> Draft {
    of_tracks(random, 0, 1)
}

pub fn many_tracks(random: &mut Random) -> Draft {
    let tracks = random.between(20, 300);
    of_tracks(random, tracks, 3)
}

pub fn long_tracks(random: &mut Random) -> Draft {
    of_tracks(random, 2, 400)
}

/// One of the generated pieces, each track with one end, standing last.
pub fn music(random: &mut Random) -> Draft {
    let piece = generate::piece(random);
    let mut tracks = piece.tracks();
    for track in &mut tracks {
        track.retain(|event| event.1 >> 24 != 6);
        track.push(end(random));
    }
    let format = u16::from(tracks.len() != 1 || random.once_in(2));
    draft(random, format, piece.sizes[0] as u16, &tracks)
}

fn of_tracks(random: &mut Random, count: u64, most: u64) -> Draft {
    let tracks: Vec<_> = (0..count).map(|_| track(random, most)).collect();
    let division = division(random);
    draft(random, 1, division, &tracks)
}

fn draft(random: &mut Random, format: u16, division: u16, tracks: &[Events]) -> Draft {
    let mut writer = Writer::new(random);
    let chunks = tracks.iter().map(|track| writer.track(track)).collect();
    let facts = writer.facts;
    let mut draft = Draft {
        format,
        count: tracks.len() as u16,
        division,
        rest: rest(random),
        chunks,
        facts,
    };
    while random.once_in(4) {
        let at = random.below(draft.chunks.len() as u64 + 1) as usize;
        draft.chunks.insert(at, unknown(random));
    }
    note(&mut draft);
    draft
}

fn note(draft: &mut Draft) {
    let unknown = |chunk: &Chunk| chunk.id != TRACK;
    let some = draft.chunks.iter().any(unknown);
    let last = draft.chunks.last().is_some_and(unknown);
    draft.note(Fact::UnknownChunk, some);
    draft.note(Fact::UnknownLast, last);
    draft.note(Fact::LongHeader, !draft.rest.is_empty());
    draft.note(Fact::Timecode, draft.division & 0x8000 != 0);
}

fn division(random: &mut Random) -> u16 {
    match random.below(6) {
        0 => random.pick(&[0x8000, 0xffff, 0xe728, 0xe250, 0x00ff, 0x0100, 0x7fff]),
        1 => random.between(1, 65_535) as u16,
        _ => random.pick(&DIVISIONS) as u16,
    }
}

/// What a header has behind its six bytes: mostly nothing.
fn rest(random: &mut Random) -> Vec<u8> {
    match random.once_in(8) {
        true => {
            let length = random.between(1, 20);
            some_bytes(random, length)
        }
        false => Vec::new(),
    }
}

/// A chunk that is neither header nor track, by a letter at least.
pub fn unknown(random: &mut Random) -> Chunk {
    let id = match random.below(6) {
        0 => [(); 4].map(|()| random.byte()),
        1 | 2 => {
            let mut id = random.pick(&[HEADER, TRACK]);
            id[random.below(4) as usize] ^= 1 << random.below(8);
            id
        }
        _ => random.pick(&[*b"XFIH", *b"RIFF", *b"MTRK", *b"mtrk", [0; 4], [0xff; 4]]),
    };
    let id = if [HEADER, TRACK].contains(&id) {
        [1; 4]
    } else {
        id
    };
    let length = random.pick(&[0, 0, 1, 4, 8, 20]);
    let mut bytes = some_bytes(random, length);
    if random.once_in(4) {
        bytes.extend(*b"MTrk\0\0\0\x04\0\xff\x2f\0");
    }
    Chunk::of_bytes(id, bytes)
}

/// Events of which the last is the end.
fn track(random: &mut Random, most: u64) -> Events {
    let mut status = 0x90;
    let count = random.below(most);
    let events = (0..count).map(|_| (delta(random), some_word(random, &mut status)));
    let mut events: Events = events.collect();
    events.push(end(random));
    events
}

fn end(random: &mut Random) -> (u32, u32) {
    (delta(random), word(6, 0, 0, 0))
}

fn delta(random: &mut Random) -> u32 {
    const EDGES: [u32; 7] = [127, 128, 16_383, 16_384, 2_097_151, 2_097_152, 268_435_455];
    match random.below(10) {
        0..5 => 0,
        5..8 => random.below(128) as u32,
        8 => random.pick(&EDGES),
        _ => random.below(1 << 28) as u32 >> random.below(28),
    }
}

/// Any word that a file can give and 5 lets pass. Channel messages often repeat the status before.
fn some_word(random: &mut Random, status: &mut u8) -> u32 {
    let (a, b) = (random.byte(), random.byte());
    match random.below(20) {
        0 | 1 => word(0, 0, 0, 0),
        2 => word(1, 0, 0, 0),
        3 => word(2, a, b, random.byte()),
        4 => word(3, a, b & 7, 0),
        5 => word(4, a, b & 1, 0),
        6 => word(5, a, b, 0),
        _ => message(random, status),
    }
}

fn message(random: &mut Random, status: &mut u8) -> u32 {
    if random.once_in(3) {
        *status = random.between(0x80, 0xef) as u8;
    }
    let data = |random: &mut Random| match random.below(4) {
        0 => random.pick(&[0, 0, 127]),
        _ => random.data(),
    };
    let (first, second) = (data(random), data(random));
    match *status >> 4 {
        kind @ (12 | 13) => word(kind, *status & 15, first, 0),
        kind => word(kind, *status & 15, first, second),
    }
}
