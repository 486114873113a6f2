//! Pieces that some refusal names.

use super::{Random, piece};
use crate::piece::{Piece, word};

/// A piece with faults, most of which some refusal names.
pub fn damaged(random: &mut Random) -> Piece {
    let mut piece = piece(random);
    let faults = if random.once_in(4) { 2 } else { 1 };
    for _ in 0..faults {
        damage(random, &mut piece);
    }
    piece
}

fn damage(random: &mut Random, piece: &mut Piece) {
    let Piece {
        sizes,
        deltas,
        words,
    } = piece;
    let event = random.below(words.len().max(1) as u64) as usize;
    match random.below(20) {
        0 => drop(deltas.pop()),
        1 => drop(words.pop()),
        2 => deltas.push(0),
        3 => words.push(0),
        4 => sizes.truncate(random.below(sizes.len() as u64 + 1) as usize),
        5 => sizes.push(random.below(2) as u32),
        6 => {
            let at = random.below(sizes.len().max(1) as u64) as usize;
            if let Some(size) = sizes.get_mut(at) {
                *size = size.wrapping_add(random.pick(&[1, u32::MAX, 1 << 31, 65_536]));
            }
        }
        7 => {
            // The counts' sum is right only modulo 2^32.
            sizes.extend([1 << 31, 1 << 31]);
            if let Some(count) = sizes.get_mut(1) {
                *count += 2;
            }
        }
        8 | 9 => {
            if let Some(division) = sizes.first_mut() {
                *division = random.pick(&[0, 0, 65_536, u32::MAX]);
            }
        }
        10..13 => {
            if let Some(delta) = deltas.get_mut(event) {
                *delta = random.pick(&[268_435_456, u32::MAX, 1 << 31]);
            }
        }
        13..17 => {
            if let Some(word) = words.get_mut(event) {
                *word = bad_word(random);
            }
        }
        17 | 18 => {
            // No note is left.
            for word in words.iter_mut().filter(|word| **word >> 24 == 9) {
                *word &= 0xffff_ff00;
            }
        }
        _ if random.once_in(60) => {
            let excess = 500_001 - words.len() as u32;
            deltas.resize(500_001, 0);
            words.resize(500_001, 0);
            if let [_, tracks, ..] = &mut sizes[..] {
                *tracks += 1;
                sizes.push(excess);
            }
        }
        // Nothing is wrong yet: two words change places.
        _ if event < words.len() => words.swap(0, event),
        _ => {}
    }
}

/// A word that document 01 does not admit, or nearly so.
fn bad_word(random: &mut Random) -> u32 {
    let (a, b, c) = (random.byte(), random.byte(), random.byte());
    match random.below(8) {
        0 => word(7, 0, 0, 0),
        1 => word(15 + random.below(241) as u8, a, b, c),
        2 => word(random.pick(&[0, 1, 6]), a & 1, b & 1, 1),
        3 => word(3, a, 8 | b, 0),
        4 => word(random.pick(&[3, 4, 5]), a, 0, 1 | c),
        5 => word(4, a, 2 | b, 0),
        6 => word(random.pick(&[8, 9, 10, 11, 14]), a & 31, b, c),
        _ => word(random.pick(&[12, 13]), a & 31, b & 127, c),
    }
}
