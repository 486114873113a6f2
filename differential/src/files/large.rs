//! Large files: those at the limits, and those that the benchmark times.

use super::draft::{TRACK, head, header};
use super::reader::{MOST_BYTES, MOST_EVENTS};
use super::writer::{Writer, put_number};
use crate::generate::Random;
use crate::piece::word;

/// A file, and the number that it gets, 0 where it is read.
pub struct Large {
    pub name: &'static str,
    pub number: u32,
    pub file: fn() -> Vec<u8>,
}

const END: &[u8] = b"\x00\xff\x2f\x00";
const NOTE: &[u8] = b"\x00\x90\x3c\x40";
const BAD: &[u8] = b"\x00\xff\x59\x02\x00\x02";

#[rustfmt::skip]
pub const LIMITS: [Large; 16] = [
    Large { name: "67,108,864 bytes", number: 0, file: || of_bytes(MOST_BYTES) },
    Large { name: "67,108,865 bytes", number: 11, file: || of_bytes(MOST_BYTES + 1) },
    Large { name: "67,108,865 zeros", number: 11, file: || vec![0; MOST_BYTES + 1] },
    Large { name: "500,000 events", number: 0, file: || notes(96, 499_999, END) },
    Large { name: "500,001 events", number: 3, file: || notes(96, 500_000, END) },
    Large { name: "500,000 events in 250,000 a track", number: 0, file: || two_tracks(250_000) },
    Large { name: "500,002 events in 250,001 a track", number: 3, file: || two_tracks(250_001) },
    Large { name: "600,000 events, no End of Track", number: 12, file: || notes(96, 600_000, b"") },
    Large { name: "600,000 events, a bad word", number: 3, file: || notes(96, 600_000, &[BAD, END].concat()) },
    Large { name: "600,000 events, division 0", number: 2, file: || notes(0, 600_000, END) },
    Large { name: "600,000 events, division 0, bad word", number: 2, file: || notes(0, 600_000, &[BAD, END].concat()) },
    Large { name: "a bad word and a break behind it", number: 12, file: || notes(96, 3, &[BAD, b"\x00\xf1", END].concat()) },
    Large { name: "65,535 tracks", number: 0, file: || tracks(65_535, 65_535) },
    Large { name: "65,535 tracks, the header says 65,534", number: 12, file: || tracks(65_534, 65_535) },
    Large { name: "65,536 tracks, the header says 0", number: 12, file: || tracks(0, 65_536) },
    Large { name: "65,537 tracks, the header says 1", number: 12, file: || tracks(1, 65_537) },
];

#[rustfmt::skip]
pub const TIMED: [Large; 15] = [
    Large { name: "500,000 events: notes", number: 0, file: || in_order(&BAR) },
    Large { name: "500,000 events: many metas", number: 0, file: || in_order(&METAS) },
    Large { name: "500,000 events: notes by chance", number: 0, file: || by_chance(note) },
    Large { name: "500,000 events: metas by chance", number: 0, file: || by_chance(note_or_meta) },
    Large { name: "64 MB: unknown chunks, empty", number: 0, file: unknown_chunks },
    Large { name: "64 MB: tracks of 12 bytes", number: 12, file: || tracks(65_535, (MOST_BYTES - 14) / 12) },
    Large { name: "64 MB: chunk of 2^32 - 1 bytes", number: 12, file: || endless(*b"XFIH") },
    Large { name: "64 MB: track of 2^32 - 1 bytes", number: 12, file: || endless(TRACK) },
    Large { name: "64 MB: one meta", number: 0, file: one_meta },
    Large { name: "64 MB: notes, running status", number: 3, file: || filled(b"\x00\x90\x3c\x40", b"\x00\x3c\x40") },
    Large { name: "64 MB: programs, running status", number: 3, file: || filled(b"\x00\xc0\x05", b"\x00\x05") },
    Large { name: "64 MB: notes, padded deltas", number: 3, file: || filled(b"", b"\x80\x80\x80\x00\x90\x3c\x40") },
    Large { name: "64 MB: F0 events, empty", number: 3, file: || filled(b"", b"\x00\xf0\x00") },
    Large { name: "64 MB: metas, empty", number: 3, file: || filled(b"", b"\x00\xff\x01\x00") },
    Large { name: "64 MB: events by chance", number: 3, file: every_kind },
];

/// Sound, and filled up by an unknown chunk.
fn of_bytes(count: usize) -> Vec<u8> {
    let mut file = tracks(1, 1);
    let length = count - file.len() - 8;
    head(&mut file, *b"XFIH", length as u32);
    file.resize(count, 0x4d);
    file
}

fn put_track(file: &mut Vec<u8>, parts: &[&[u8]]) {
    let length: usize = parts.iter().map(|part| part.len()).sum();
    head(file, TRACK, length as u32);
    file.extend(parts.concat());
}

fn notes(division: u16, count: usize, behind: &[u8]) -> Vec<u8> {
    let mut file = header(0, 1, division);
    put_track(&mut file, &[&NOTE.repeat(count), behind]);
    file
}

/// So many events in each, the end included.
fn two_tracks(count: usize) -> Vec<u8> {
    let mut file = header(1, 2, 96);
    for _ in 0..2 {
        put_track(&mut file, &[&NOTE.repeat(count - 1), END]);
    }
    file
}

/// Tracks of an end alone.
fn tracks(said: u16, count: usize) -> Vec<u8> {
    let mut track = Vec::new();
    put_track(&mut track, &[END]);
    [header(1, said, 96), track.repeat(count)].concat()
}

fn unknown_chunks() -> Vec<u8> {
    let mut file = header(1, 0, 96);
    while file.len() + 8 <= MOST_BYTES {
        head(&mut file, *b"XFIH", 0);
    }
    file
}

fn endless(id: [u8; 4]) -> Vec<u8> {
    let mut file = header(1, 1, 96);
    head(&mut file, id, u32::MAX);
    file.resize(MOST_BYTES, 0);
    file
}

fn one_meta() -> Vec<u8> {
    let length = MOST_BYTES - 34;
    let mut meta = vec![0, 0xff, 0x7f];
    put_number(&mut meta, length as u32, 4);
    meta.resize(meta.len() + length, 0xff);
    let mut file = header(0, 1, 96);
    put_track(&mut file, &[&meta, END]);
    file
}

/// One event in a track again and again.
fn filled(first: &[u8], event: &[u8]) -> Vec<u8> {
    let count = (MOST_BYTES - 26 - first.len()) / event.len();
    let mut file = header(0, 1, 96);
    put_track(&mut file, &[first, &event.repeat(count), END]);
    file
}

/// Some events of music, the status of a few left out.
const BAR: [&[u8]; 11] = [
    b"\x00\x90\x3c\x40",
    b"\x00\x40\x40",
    b"\x00\x43\x50",
    b"\x60\x48\x7f",
    b"\x81\x40\x80\x3c\x40",
    b"\x00\x40\x40",
    b"\x00\x43\x40",
    b"\x60\x90\x48\x00",
    b"\x00\x91\x24\x60",
    b"\x83\x60\x91\x24\x00",
    b"\x10\xb1\x07\x64",
];

const METAS: [&[u8]; 9] = [
    b"\x00\xff\x51\x03\x07\xa1\x20",
    b"\x00\xff\x05\x04kle ",
    b"\x60\x90\x3c\x40",
    b"\x81\x40\x3c\x00",
    b"\x00\xff\x58\x04\x04\x02\x18\x08",
    b"\x00\xff\x59\x02\xfe\x01",
    b"\x00\xff\x06\x06Chorus",
    b"\x00\xff\x7f\x07ACRD1\x00\x01",
    b"\x00\xff\x01\x00",
];

/// As many events as are admitted, the same ones again and again.
fn in_order(events: &[&[u8]]) -> Vec<u8> {
    let events: Vec<_> = events
        .iter()
        .copied()
        .cycle()
        .take(MOST_EVENTS - 1)
        .collect();
    let mut file = header(0, 1, 96);
    put_track(&mut file, &[&events.concat(), END]);
    file
}

/// As many, in no order that could be foreseen. Of the statuses that may be left out, half are.
fn by_chance(some_word: fn(&mut Random, usize) -> u32) -> Vec<u8> {
    let mut random = Random::new(1);
    let words: Vec<_> = (1..MOST_EVENTS)
        .map(|index| (random.below(256) as u32, some_word(&mut random, index)))
        .chain([(0, word(6, 0, 0, 0))])
        .collect();
    let track = Writer::with(&mut random, u64::MAX, 2).track(&words);
    let events: Vec<_> = track.events.iter().map(|event| &event.bytes[..]).collect();
    let mut file = header(0, 1, 96);
    put_track(&mut file, &events);
    file
}

/// Ons, each with an off later on.
fn note(_: &mut Random, index: usize) -> u32 {
    let key = (index / 16 * 7 % 88 + 21) as u8;
    word(if index % 16 < 8 { 9 } else { 8 }, 0, key, 64)
}

fn note_or_meta(random: &mut Random, index: usize) -> u32 {
    match random.below(8) {
        0 => word(2, 7, 161, 32),
        1 => word(3, 4, 2, 0),
        2 => word(4, 1, 0, 0),
        3 => word(5, 0, 1, 0),
        4 | 5 => 0,
        _ => note(random, index),
    }
}

/// Events by chance.
fn every_kind() -> Vec<u8> {
    const EVENTS: [&[u8]; 8] = [
        b"\x00\x90\x3c\x40",
        b"\x00\xc0\x05",
        b"\x81\x00\xb0\x07\x7f",
        b"\x00\xf0\x00",
        b"\x00\xff\x01\x00",
        b"\x83\xff\x7f\xf7\x01\x00",
        b"\x00\xff\x59\x02\x00\x00",
        b"\x00\xe0\x00\x40\x00\x01\x41",
    ];
    let mut random = Random::new(2);
    let mut track = Vec::with_capacity(MOST_BYTES);
    while track.len() + 40 < MOST_BYTES {
        track.extend(random.pick(&EVENTS));
    }
    let mut file = header(0, 1, 96);
    put_track(&mut file, &[&track, END]);
    file
}
