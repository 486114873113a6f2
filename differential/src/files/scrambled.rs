//! Files with random damage, of which nobody says beforehand what they are read as.

use super::draft::{self, Draft};
use super::writer::{SIGNIFICANT, some_bytes};
use crate::generate::Random;

/// Does something to the bytes of a sound file.
pub type Scramble = fn(&mut Random, Draft) -> Vec<u8>;

#[rustfmt::skip]
pub const SCRAMBLES: [(&str, Scramble); 9] = [
    ("significant bytes over others", |random, draft| places(random, &draft, |random, _| random.pick(&SIGNIFICANT))),
    ("bytes changed", |random, draft| places(random, &draft, |random, _| random.byte())),
    ("bits changed", |random, draft| places(random, &draft, |random, byte| byte ^ 1 << random.below(8))),
    ("bytes deleted", deleted),
    ("bytes inserted", inserted),
    ("cut", cut),
    ("lengths changed", lengths),
    ("short tracks of significant bytes", short_tracks),
    ("noise", noise),
];

/// A few bytes become others, most of them behind the first chunk's heads.
fn places(random: &mut Random, draft: &Draft, other: fn(&mut Random, u8) -> u8) -> Vec<u8> {
    let mut file = draft.bytes();
    let low = if random.once_in(8) { 0 } else { 12 };
    for _ in 0..random.between(1, 4) {
        let at = random.between(low, file.len() as u64 - 1) as usize;
        file[at] = other(random, file[at]);
    }
    file
}

fn deleted(random: &mut Random, draft: Draft) -> Vec<u8> {
    let mut file = draft.bytes();
    let at = random.below(file.len() as u64) as usize;
    let to = (at + random.pick(&[1, 1, 2, 4, 8])).min(file.len());
    file.drain(at..to);
    if random.once_in(2) {
        mend(&mut file);
    }
    file
}

fn inserted(random: &mut Random, draft: Draft) -> Vec<u8> {
    let mut file = draft.bytes();
    let at = random.below(file.len() as u64 + 1) as usize;
    let length = random.pick(&[1, 1, 2, 4, 8]);
    file.splice(at..at, some_bytes(random, length));
    if random.once_in(2) {
        mend(&mut file);
    }
    file
}

fn cut(random: &mut Random, draft: Draft) -> Vec<u8> {
    let mut file = draft.bytes();
    file.truncate(random.below(file.len() as u64) as usize);
    if random.once_in(4) {
        mend(&mut file);
    }
    file
}

/// The last chunk's length becomes what is there.
fn mend(file: &mut [u8]) {
    let heads = draft::heads(file);
    if let Some(&last) = heads.last()
        && last + 8 <= file.len()
    {
        let length = (file.len() - last - 8) as u32;
        file[last + 4..last + 8].copy_from_slice(&length.to_be_bytes());
    }
}

/// The length of one chunk becomes a little other, or one at an edge.
fn lengths(random: &mut Random, draft: Draft) -> Vec<u8> {
    let mut file = draft.bytes();
    let head = random.pick(&draft::heads(&file));
    let place = &mut file[head + 4..head + 8];
    let length = u32::from_be_bytes(place.try_into().expect("four bytes"));
    let other = match random.below(3) {
        0 => random.pick(&[u32::MAX, u32::MAX - 7, 1 << 31, 1 << 24, 0, 5, 6, 8]),
        1 => length.wrapping_sub(random.between(1, 8) as u32),
        _ => length.wrapping_add(random.between(1, 24) as u32),
    };
    place.copy_from_slice(&other.to_be_bytes());
    file
}

/// A file of format 0 whose track is significant bytes, mostly with an end behind them.
fn short_tracks(random: &mut Random, _: Draft) -> Vec<u8> {
    let mut track = Vec::new();
    for _ in 0..random.between(1, 6) {
        track.push(random.pick(&[0, 0, 0, 1, 0x7f, 0x81]));
        event(random, &mut track);
    }
    if !random.once_in(4) {
        track.extend([0, 0xff, 0x2f, 0]);
    }
    draft::around(&track)
}

/// A status and so many bytes as it asks for, or nearly.
fn event(random: &mut Random, track: &mut Vec<u8>) {
    let status = random.pick(&[0xff, 0xff, 0xf0, 0xf7, 0x90, 0xc0, 0xe0, 0x05]);
    track.push(status);
    if status == 0xff {
        track.push(random.pick(&SIGNIFICANT));
    }
    let mut length = match status {
        0xf0.. => random.below(5),
        0x05 | 0xc0 => 1,
        _ => 2,
    };
    if status >= 0xf0 {
        track.push(length as u8);
    }
    if random.once_in(12) {
        length ^= 1;
    }
    let low = if status < 0xf0 { 15 } else { SIGNIFICANT.len() };
    track.extend((0..length).map(|_| random.pick(&SIGNIFICANT[..low])));
}

fn noise(random: &mut Random, _: Draft) -> Vec<u8> {
    let mut file = match random.once_in(2) {
        true => draft::header(random.below(3) as u16, random.below(3) as u16, 96),
        false => Vec::new(),
    };
    let length = random.below(40);
    file.extend(some_bytes(random, length));
    file
}
