//! Files that are turned away, each class for one reason.

use super::draft::{Chunk, Draft, Event, HEADER, TRACK, head};
use super::sound;
use super::writer::{FIXED, SIGNIFICANT, Writer, data_bytes, put_number, some_bytes};
use crate::generate::Random;
use crate::piece::word;

/// Breaks a draft that has a track.
pub type Break = fn(&mut Random, Draft) -> Vec<u8>;

/// What breaks a file behind a header that is whole.
#[rustfmt::skip]
pub const BREAKS: [(&str, Break); 20] = [
    ("second header", second_header),
    ("chunk past the end", chunk_past_the_end),
    ("bytes behind the last chunk", bytes_behind),
    ("other count of tracks", other_count),
    ("format 0, other than one track", other_than_one),
    ("empty track", empty_track),
    ("track without its end", no_end),
    ("end of track twice", end_twice),
    ("bytes behind the end of track", behind_the_end),
    ("track cut short", cut_short),
    ("delta of five bytes", |random, draft| inserted(random, draft, long_delta)),
    ("length of five bytes", |random, draft| inserted(random, draft, long_length)),
    ("length past the chunk", past_the_chunk),
    ("status F1 to FE", |random, draft| inserted(random, draft, no_status)),
    ("status in a message", |random, draft| inserted(random, draft, status_inside)),
    ("meta type above 127", |random, draft| inserted(random, draft, meta_type)),
    ("fixed length wrong", fixed_length),
    ("data at a track's start", data_at_start),
    ("data behind a meta", |random, draft| inserted(random, draft, data_behind_meta)),
    ("data behind a system event", |random, draft| inserted(random, draft, data_behind_system)),
];

/// What breaks the header.
pub const HEADER_BREAKS: [(&str, Break); 5] = [
    ("header cut", header_cut),
    ("other id in front", other_id),
    ("chunk in front of the header", chunk_in_front),
    ("header below six bytes", short_header),
    ("header past the end", header_past_the_end),
];

/// Broken behind the header in some way.
pub fn any(random: &mut Random, draft: Draft) -> Vec<u8> {
    let (_, breaks) = random.pick(&BREAKS);
    breaks(random, draft)
}

/// 13, often with something broken behind the header.
pub fn format_above_1(random: &mut Random, mut draft: Draft) -> Vec<u8> {
    let format = random.pick(&[2, 2, 3, 255, 256, 257, 0x8000, 65_535]);
    let length = draft.header_length();
    draft.format = 1;
    let mut file = match random.once_in(2) {
        true => any(random, draft),
        false => draft.bytes(),
    };
    file[8..10].copy_from_slice(&u16::to_be_bytes(format));
    if random.once_in(4) {
        file.truncate(random.between(length as u64, file.len() as u64) as usize);
    }
    file
}

/// 2, with or without a bad word.
pub fn division_0(random: &mut Random, mut draft: Draft) -> Vec<u8> {
    draft.division = 0;
    match random.once_in(2) {
        true => bad_word(random, draft).bytes(),
        false => draft.bytes(),
    }
}

/// 12, whatever else is wrong.
pub fn broken_and_bad(random: &mut Random, draft: Draft) -> Vec<u8> {
    let mut draft = bad_word(random, draft);
    if random.once_in(2) {
        draft.division = 0;
    }
    any(random, draft)
}

pub fn bad_power(random: &mut Random, draft: Draft) -> Vec<u8> {
    let power = random.pick(&[8, 8, 9, 15, 127, 128, 255]);
    let bad = word(3, random.byte(), power, 0);
    with_word(random, draft, bad).bytes()
}

pub fn bad_minor(random: &mut Random, draft: Draft) -> Vec<u8> {
    let minor = random.pick(&[2, 2, 3, 127, 128, 255]);
    let bad = word(4, random.byte(), minor, 0);
    with_word(random, draft, bad).bytes()
}

fn bad_word(random: &mut Random, draft: Draft) -> Draft {
    let bad = random.pick(&[word(3, 4, 8, 0), word(4, 0, 2, 0)]);
    with_word(random, draft, bad)
}

/// A meta more, at a track's front, where it cancels nothing.
fn with_word(random: &mut Random, mut draft: Draft, word: u32) -> Draft {
    let event = Writer::new(random).event(0, word);
    track(random, &mut draft).events.insert(0, event);
    draft
}

fn track<'a>(random: &mut Random, draft: &'a mut Draft) -> &'a mut Chunk {
    let tracks = draft.chunks.iter_mut().filter(|chunk| chunk.id == TRACK);
    let mut tracks: Vec<_> = tracks.collect();
    let index = random.below(tracks.len() as u64) as usize;
    tracks.swap_remove(index)
}

/// The draft's bytes with those of an event more somewhere before a track's end.
fn inserted(random: &mut Random, mut draft: Draft, make: fn(&mut Random) -> Vec<u8>) -> Vec<u8> {
    let event = raw(make(random));
    insert(random, &mut draft, event);
    draft.bytes()
}

fn insert(random: &mut Random, draft: &mut Draft, event: Event) {
    let track = track(random, draft);
    let at = random.below(track.events.len().max(1) as u64) as usize;
    track.events.insert(at, event);
}

/// Bytes in an event's place.
fn raw(bytes: Vec<u8>) -> Event {
    let (delta, word) = (0, 0);
    Event { delta, word, bytes }
}

fn second_header(random: &mut Random, mut draft: Draft) -> Vec<u8> {
    let length = random.pick(&[0, 1, 5, 6, 6, 6, 7, 20]);
    let mut header = Chunk::of_bytes(HEADER, some_bytes(random, length));
    header.claimed = random.pick(&[None, None, Some(u32::MAX), Some(1 << 20)]);
    let at = random.below(draft.chunks.len() as u64 + 1) as usize;
    draft.chunks.insert(at, header);
    draft.bytes()
}

/// Any chunk by far, or the last one by a little.
fn chunk_past_the_end(random: &mut Random, mut draft: Draft) -> Vec<u8> {
    let last = draft.chunks.len() - 1;
    let any = random.below(draft.chunks.len() as u64) as usize;
    let little = draft.chunks[last].length() as u32 + random.between(1, 8) as u32;
    let (index, claimed) = match random.once_in(2) {
        true => (last, little),
        false => (any, random.pick(&[u32::MAX, 0xffff_fff8, 1 << 31, 1 << 24])),
    };
    draft.chunks[index].claimed = Some(claimed);
    draft.bytes()
}

fn bytes_behind(random: &mut Random, draft: Draft) -> Vec<u8> {
    let mut file = draft.bytes();
    let length = random.between(1, 7);
    match random.once_in(2) {
        true => file.extend(&b"MTrk\0\0\0"[..length as usize]),
        false => file.extend(some_bytes(random, length)),
    }
    file
}

fn other_count(random: &mut Random, mut draft: Draft) -> Vec<u8> {
    let by = random.pick(&[1, 1, u16::MAX, u16::MAX, 256, 0x8000]);
    draft.count = draft.count.wrapping_add(by);
    draft.bytes()
}

fn other_than_one(random: &mut Random, mut draft: Draft) -> Vec<u8> {
    draft.format = 0;
    match random.below(3) {
        0 => {
            draft.chunks.retain(|chunk| chunk.id != TRACK);
            draft.count = 0;
        }
        more => {
            for _ in 0..more {
                let end = b"\x00\xff\x2f\x00".to_vec();
                draft.chunks.push(Chunk::of_bytes(TRACK, end));
            }
            draft.count += more as u16;
        }
    }
    draft.bytes()
}

fn empty_track(random: &mut Random, mut draft: Draft) -> Vec<u8> {
    track(random, &mut draft).events.clear();
    draft.bytes()
}

fn no_end(random: &mut Random, mut draft: Draft) -> Vec<u8> {
    track(random, &mut draft).events.pop();
    draft.bytes()
}

fn end_twice(random: &mut Random, mut draft: Draft) -> Vec<u8> {
    let end = Writer::new(random).event(0, word(6, 0, 0, 0));
    insert(random, &mut draft, end);
    draft.bytes()
}

fn behind_the_end(random: &mut Random, mut draft: Draft) -> Vec<u8> {
    let length = random.between(1, 5);
    track(random, &mut draft).bytes = some_bytes(random, length);
    draft.bytes()
}

/// The track's last bytes are not there, and its length says so.
fn cut_short(random: &mut Random, mut draft: Draft) -> Vec<u8> {
    let track = track(random, &mut draft);
    let mut left = random.below(track.length() as u64) as usize;
    for event in &mut track.events {
        event.bytes.truncate(left);
        left -= event.bytes.len();
    }
    draft.bytes()
}

/// Four bytes of a number that goes on, and a fifth.
fn five_bytes(random: &mut Random) -> [u8; 5] {
    let first = random.pick(&[0x80, 0x80, 0x81, 0xff]);
    [first, 0x80, 0x80, 0x80, random.pick(&[0, 1, 0x7f, 0x80])]
}

fn long_delta(random: &mut Random) -> Vec<u8> {
    [&five_bytes(random)[..], &[0x90, 0x3c, 0x40]].concat()
}

fn long_length(random: &mut Random) -> Vec<u8> {
    [counted_status(random), &five_bytes(random)].concat()
}

/// A delta and what a length follows.
fn counted_status(random: &mut Random) -> &'static [u8] {
    random.pick(&[
        &[0, 0xf0][..],
        &[0, 0xf7],
        &[0, 0xff, 0x01],
        &[0, 0xff, 0x7f],
    ])
}

fn past_the_chunk(random: &mut Random, mut draft: Draft) -> Vec<u8> {
    let track = track(random, &mut draft);
    let at = random.below(track.events.len() as u64) as usize;
    let behind = track.events[at..].iter().map(|event| event.bytes.len());
    let behind = behind.sum::<usize>() as u32;
    let length = random.pick(&[behind + 1, behind + 2, behind + 300, (1 << 28) - 1]);
    let mut bytes = counted_status(random).to_vec();
    put_number(&mut bytes, length, 4);
    track.events.insert(at, raw(bytes));
    draft.bytes()
}

fn no_status(random: &mut Random) -> Vec<u8> {
    let statuses = [
        0xf1, 0xf2, 0xf3, 0xf4, 0xf5, 0xf6, 0xf8, 0xf9, 0xfa, 0xfb, 0xfc, 0xfd, 0xfe,
    ];
    let mut event = vec![0, random.pick(&statuses)];
    event.resize(2 + random.below(3) as usize, 0);
    event
}

/// One of a message's data bytes is above 127.
fn status_inside(random: &mut Random) -> Vec<u8> {
    let status = random.between(0x80, 0xef) as u8;
    let mut data = vec![random.data(); data_bytes(status)];
    let at = random.below(data.len() as u64) as usize;
    data[at] = random.pick(&[0x80, 0x90, 0xf0, 0xf7, 0xf8, 0xfe, 0xff]);
    [&[0, status], &data[..]].concat()
}

fn meta_type(random: &mut Random) -> Vec<u8> {
    vec![0, 0xff, random.between(128, 255) as u8, 0]
}

/// The length is wrong and counts the bytes that are there; of an End of Track also at the track's end.
fn fixed_length(random: &mut Random, mut draft: Draft) -> Vec<u8> {
    let (kind, right) = random.pick(&FIXED);
    let length = match random.below(6) as usize {
        length if length == right => 6,
        length => length,
    };
    let event = raw([&[0, 0xff, kind, length as u8], &vec![0; length][..]].concat());
    match kind == 0x2f && random.once_in(2) {
        true => *track(random, &mut draft).events.last_mut().expect("an end") = event,
        false => insert(random, &mut draft, event),
    }
    draft.bytes()
}

fn data_at_start(random: &mut Random, mut draft: Draft) -> Vec<u8> {
    let event = raw(vec![0, random.data(), random.data()]);
    track(random, &mut draft).events.insert(0, event);
    draft.bytes()
}

/// Data bytes where the event before cancelled running status.
fn data_behind_meta(random: &mut Random) -> Vec<u8> {
    let metas = [
        &b"\x00\xff\x01\x00"[..],
        b"\x00\xff\x51\x03\x07\xa1\x20",
        b"\x00\xff\x58\x04\x04\x02\x18\x08",
        b"\x00\xff\x59\x02\x00\x00",
        b"\x00\xff\x7f\x07ACRD1\x00\x01",
    ];
    let meta = random.pick(&metas);
    [&[0, 0x90, 0x3c, 0x40], meta, &[0, 0x3c, 0x00]].concat()
}

fn data_behind_system(random: &mut Random) -> Vec<u8> {
    let events = [&b"\x00\xf0\x01\xf7"[..], b"\x00\xf7\x00", b"\x00\xf0\x00"];
    let event = random.pick(&events);
    [&[0, 0xc0, 0x05], event, &[0, 0x05]].concat()
}

fn header_cut(random: &mut Random, draft: Draft) -> Vec<u8> {
    let mut file = draft.bytes();
    file.truncate(random.below(draft.header_length() as u64) as usize);
    file
}

fn other_id(random: &mut Random, draft: Draft) -> Vec<u8> {
    let mut file = draft.bytes();
    let id = random.pick(&[*b"MTrk", *b"MThD", *b"MTHD", *b"RIFF", [0; 4]]);
    file[..4].copy_from_slice(&id);
    file
}

fn chunk_in_front(random: &mut Random, draft: Draft) -> Vec<u8> {
    let bytes = draft.bytes();
    let mut file = Vec::new();
    match random.below(4) {
        0 => head(&mut file, TRACK, 0),
        1 => {
            head(&mut file, *b"RIFF", bytes.len() as u32 + 12);
            file.extend(b"RMIDdata");
            file.extend((bytes.len() as u32).to_le_bytes());
        }
        2 => head(&mut file, sound::unknown(random).id, 0),
        _ => file.push(random.pick(&SIGNIFICANT)),
    }
    [file, bytes].concat()
}

/// With its six bytes behind it all the same, or with so many as it says. The format is any.
fn short_header(random: &mut Random, mut draft: Draft) -> Vec<u8> {
    draft.format = random.pick(&[0, 1, 2, 65_535]);
    let mut file = draft.bytes();
    let length = random.below(6) as usize;
    file[7] = length as u8;
    if random.once_in(2) {
        file.drain(8 + length..draft.header_length());
    }
    file
}

fn header_past_the_end(random: &mut Random, mut draft: Draft) -> Vec<u8> {
    draft.format = random.pick(&[0, 1, 2, 65_535]);
    let mut file = draft.bytes();
    let behind = file.len() as u32 - 8;
    let length = random.pick(&[behind + 1, behind + 7, 1 << 24, 1 << 31, u32::MAX]);
    file[4..8].copy_from_slice(&length.to_be_bytes());
    file
}
