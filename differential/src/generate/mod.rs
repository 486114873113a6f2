//! Pieces from a seed. The same seed and number give the same piece on every machine.

mod damage;
mod notes;
mod random;
mod track;

use crate::piece::Piece;
use crate::refusals;
use damage::damaged;
pub use random::Random;
use track::Track;

/// Piece number `index` of a seed; one in eight is damaged.
pub fn numbered(seed: u64, index: u64) -> Piece {
    let mut seeds = Random::new(seed ^ index.wrapping_mul(0xd134_2543_de82_ef95));
    let mut random = Random::new(seeds.number());
    if random.once_in(8) {
        damaged(&mut random)
    } else {
        piece(&mut random)
    }
}

/// A short piece, number `index` of a seed: at most four tracks, none of more than a few dozen quarters. One in eight is damaged.
pub fn short(seed: u64, index: u64) -> Piece {
    let first = index.wrapping_mul(SHORT_TRIES);
    let mut pieces = (0..SHORT_TRIES - 1).map(|next| numbered(seed, first.wrapping_add(next)));
    pieces
        .find(is_short)
        .unwrap_or_else(|| numbered(seed, first.wrapping_add(SHORT_TRIES - 1)))
}

/// Of so many pieces the first short one is taken, else the last.
const SHORT_TRIES: u64 = 16;

fn is_short(piece: &Piece) -> bool {
    let quarter = u64::from(piece.sizes.first().copied().unwrap_or(0).max(1));
    let ticks: u64 = piece.deltas.iter().copied().map(u64::from).sum();
    piece.sizes.len() <= 6 && piece.deltas.len() <= 200 && ticks <= 64 * quarter
}

/// A piece that 1 to 5 let pass.
pub fn piece(random: &mut Random) -> Piece {
    let division = division(random);
    of_division(random, division)
}

/// A short piece with notes, number `index` of a seed. The ticks per quarter are a multiple of 16 where the number is even,
/// and none where it is odd.
pub fn halved(seed: u64, index: u64) -> Piece {
    let mut seeds = Random::new(!seed ^ index.wrapping_mul(0xd134_2543_de82_ef95));
    let mut random = Random::new(seeds.number());
    let division = match index % 2 {
        0 => by_sixteen(&mut random),
        _ => not_by_sixteen(&mut random),
    };
    let has_notes = |piece: &Piece| refusals::import(piece).is_none();
    loop {
        let piece = of_division(&mut random, division);
        if is_short(&piece) && has_notes(&piece) {
            return piece;
        }
    }
}

fn of_division(random: &mut Random, division: u32) -> Piece {
    let quarter = if division & 0x8000 != 0 {
        480
    } else {
        u64::from(division)
    };
    let (track_count, small) = match random.below(300) {
        0 => (0, true),
        1 | 2 => (random.between(30, 45), true),
        3..150 => (1, false),
        150..260 => (random.between(2, 4), false),
        _ => (random.between(3, 8), true),
    };
    let tracks: Vec<_> = (0..track_count)
        .map(|index| {
            let mut track = Track::new(quarter);
            track.fill(random, index == 0, small);
            track.finish(random)
        })
        .collect();
    Piece::of_tracks(division, &tracks)
}

/// The divisions that most pieces have.
pub const DIVISIONS: [u32; 31] = [
    1, 2, 3, 4, 5, 6, 7, 8, 9, 10, 11, 12, 13, 14, 15, 16, 17, 18, 19, 20, 24, 48, 96, 120, 192,
    240, 384, 480, 960, 15_360, 32_767,
];

/// 32,768 and above are timecode: 480 ticks per quarter.
fn by_sixteen(random: &mut Random) -> u32 {
    match random.below(8) {
        0..4 => random.pick(&[16, 48, 96, 192, 240, 384, 480, 960]),
        4 | 5 => 16 * random.between(1, 8) as u32,
        6 => 16 * random.between(1, 2_047) as u32,
        _ => 0x8000 | random.below(0x8000) as u32,
    }
}

fn not_by_sixteen(random: &mut Random) -> u32 {
    let division = match random.below(8) {
        0 | 1 => random.pick(&[1, 3, 5, 6, 7, 10, 12, 12, 12, 15, 20, 24]),
        2 | 3 => random.between(1, 63),
        4 => random.pick(&[72, 100, 120, 180, 200, 220, 250, 360, 500, 1_000]),
        5 => random.between(465, 495),
        6 => random.between(1, 1_023),
        _ => random.between(1, 32_767),
    };
    match division % 16 {
        0 => division as u32 - 1,
        _ => division as u32,
    }
}

fn division(random: &mut Random) -> u32 {
    match random.below(12) {
        0..4 => 480,
        4..11 => random.pick(&DIVISIONS),
        _ if random.once_in(4) => random.pick(&[0x8000, 0xffff, 0xe728, 0xe250]),
        _ => 0x8000 | random.below(0x8000) as u32,
    }
}
