//! Single numbers of arbitrary arrays, often at the edge of what is admitted.

use crate::generate::{DIVISIONS, Random};
use crate::piece;

const EDGES: [u32; 16] = [
    0,
    1,
    2,
    3,
    127,
    128,
    255,
    256,
    32_767,
    32_768,
    65_535,
    65_536,
    500_001,
    268_435_456,
    1 << 31,
    u32::MAX,
];

const BYTES: [u8; 12] = [0, 0, 1, 2, 7, 8, 9, 15, 16, 127, 128, 255];

pub fn number(random: &mut Random) -> u32 {
    match random.below(4) {
        0 => random.number() as u32,
        1 => random.below(40) as u32,
        _ => random.pick(&EDGES),
    }
}

pub fn division(random: &mut Random) -> u32 {
    match random.below(24) {
        0 => random.pick(&[0, 0, 65_536, u32::MAX]),
        1 => random.pick(&[1, 32_767, 32_768, 65_535]),
        2 => random.below(65_536) as u32,
        3..8 => random.pick(&DIVISIONS),
        _ => 480,
    }
}

pub fn delta(random: &mut Random) -> u32 {
    match random.below(4) {
        0 => random.pick(&[
            0,
            1,
            268_435_454,
            268_435_455,
            268_435_456,
            1 << 31,
            u32::MAX,
        ]),
        1 => random.number() as u32,
        _ => small_delta(random),
    }
}

pub fn small_delta(random: &mut Random) -> u32 {
    match random.below(8) {
        0..4 => 0,
        4 => random.below(4) as u32,
        5 => random.below(300) as u32,
        6 => random.below(4_000) as u32,
        _ => random.pick(&[30, 60, 120, 240, 480, 1_920]),
    }
}

/// Any word; most kinds are there, most bytes are at an edge.
pub fn word(random: &mut Random) -> u32 {
    let byte = |random: &mut Random| match random.once_in(3) {
        true => random.byte(),
        false => random.pick(&BYTES),
    };
    let kind = match random.below(8) {
        0 => random.byte(),
        1 => random.pick(&[15, 16, 127, 128, 144, 255]),
        _ => random.below(16) as u8,
    };
    let (a, b, c) = (byte(random), byte(random), byte(random));
    piece::word(kind, a, b, c)
}

/// A word that is admitted, whatever it means where it stands.
pub fn good_word(random: &mut Random) -> u32 {
    let channel = match random.below(3) {
        0 => random.channel(),
        _ => random.pick(&[0, 0, 9, 15]),
    };
    let data = |random: &mut Random| match random.below(3) {
        0 => random.data(),
        1 => random.pick(&[0, 1, 127]),
        _ => random.between(58, 66) as u8,
    };
    let (first, second) = (data(random), data(random));
    match random.below(20) {
        0 => piece::word(random.pick(&[0, 1, 6]), 0, 0, 0),
        1 => 2 << 24 | random.below(1 << 24) as u32,
        2 => piece::word(3, random.byte(), random.below(8) as u8, 0),
        3 => piece::word(4, random.byte(), random.below(2) as u8, 0),
        4 => piece::word(5, random.below(18) as u8, random.below(18) as u8, 0),
        5 => piece::word(random.pick(&[12, 13]), channel, first, 0),
        6 | 7 => piece::word(random.pick(&[10, 11, 14]), channel, first, second),
        8..13 => piece::word(8, channel, first, second),
        _ => piece::word(9, channel, first, second),
    }
}
