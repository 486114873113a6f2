//! Document 01's table of refusals, numbers 1 to 7 and the work area of 8, read from the paper and not from the Rust.

use crate::piece::{Piece, sounds};

const MOST_TRACKS: u32 = 65_535;
const MOST_DIVISION: u32 = 65_535;
const MOST_EVENTS: u64 = 500_000;
pub const MOST_DELTA: u32 = 268_435_455;
const MOST_PARTS: usize = 32;

/// 1 to 5: what any call asks of a piece.
pub fn admission(piece: &Piece) -> Option<u8> {
    let Piece {
        sizes,
        deltas,
        words,
    } = piece;
    let [division, track_count, counts @ ..] = &sizes[..] else {
        return Some(1);
    };
    let events: u64 = counts.iter().map(|&count| u64::from(count)).sum();
    if *division > MOST_DIVISION
        || *track_count > MOST_TRACKS
        || counts.len() != *track_count as usize
        || deltas.len() as u64 != events
        || words.len() as u64 != events
    {
        return Some(1);
    }
    if *division == 0 {
        return Some(2);
    }
    if events > MOST_EVENTS {
        return Some(3);
    }
    deltas.iter().zip(words).find_map(|(&delta, &word)| {
        if delta > MOST_DELTA {
            Some(4)
        } else if bad_word(word) {
            Some(5)
        } else {
            None
        }
    })
}

/// 1 to 6: what the import asks of a piece.
pub fn import(piece: &Piece) -> Option<u8> {
    admission(piece).or_else(|| (!piece.words.iter().any(|&word| sounds(word))).then_some(6))
}

/// 1 to 7: what a call for one part asks.
pub fn part(piece: &Piece, part: u32) -> Option<u8> {
    import(piece).or_else(|| (part as usize >= part_count(piece)).then_some(7))
}

/// Parts of an admitted piece: tracks with notes, at most 32.
pub fn part_count(piece: &Piece) -> usize {
    piece
        .tracks()
        .iter()
        .filter(|track| track.iter().any(|event| sounds(event.1)))
        .count()
        .min(MOST_PARTS)
}

/// 8: the words that a work area of an admitted piece must have.
pub fn work(piece: &Piece) -> usize {
    let notes = |track: &Vec<(u32, u32)>| track.iter().filter(|event| sounds(event.1)).count();
    16 * piece.tracks().iter().map(notes).max().unwrap_or(0) + 4_096
}

fn bad_word(word: u32) -> bool {
    let [kind, a, b, c] = word.to_be_bytes();
    let (channel, first, second) = (a < 16, b < 128, c < 128);
    let good = match kind {
        0 | 1 | 6 => a == 0 && b == 0 && c == 0,
        2 => true,
        3 => b <= 7 && c == 0,
        4 => b <= 1 && c == 0,
        5 => c == 0,
        8..=11 | 14 => channel && first && second,
        12 | 13 => channel && first && c == 0,
        _ => false,
    };
    !good
}
