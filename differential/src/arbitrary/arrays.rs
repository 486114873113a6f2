//! Arbitrary arrays: from plain noise to pieces with a little changed.

use super::values;
use crate::generate::{self, Random};
use crate::piece::Piece;

pub fn some(random: &mut Random) -> Piece {
    if random.once_in(1_500) {
        return huge(random);
    }
    match random.below(16) {
        0 => noise(random),
        1 => agreeing(random, values::word),
        2 => nearly_agreeing(random),
        3..6 => agreeing(random, values::good_word),
        6..11 => changed(random),
        11 => generate::numbered(random.number(), 0),
        _ => generate::piece(random),
    }
}

/// Three arrays that have nothing to do with each other.
fn noise(random: &mut Random) -> Piece {
    let mut list = |value: fn(&mut Random) -> u32| {
        let length = length(random);
        (0..length).map(|_| value(random)).collect()
    };
    Piece {
        sizes: list(values::number),
        deltas: list(values::delta),
        words: list(values::word),
    }
}

/// Sizes that agree, with words of a kind; deltas are mostly small.
fn agreeing(random: &mut Random, word: fn(&mut Random) -> u32) -> Piece {
    let tracks = match random.below(40) {
        0 => 0,
        1 => random.between(30, 70),
        2 => random.pick(&[255, 256, 3_000]),
        _ => random.between(1, 4),
    };
    let wide = random.once_in(12);
    let tracks: Vec<_> = (0..tracks)
        .map(|_| {
            let events = if tracks < 10 {
                length(random)
            } else {
                random.below(3) as usize
            };
            let delta = |random: &mut Random| match wide && random.once_in(3) {
                true => values::delta(random).min(268_435_456),
                false => values::small_delta(random),
            };
            (0..events).map(|_| (delta(random), word(random))).collect()
        })
        .collect();
    Piece::of_tracks(values::division(random), &tracks)
}

fn nearly_agreeing(random: &mut Random) -> Piece {
    let mut piece = agreeing(random, values::good_word);
    for _ in 0..random.between(1, 2) {
        resize(random, &mut piece);
    }
    piece
}

/// A piece with one or several numbers changed.
fn changed(random: &mut Random) -> Piece {
    let mut piece = generate::piece(random);
    for _ in 0..random.pick(&[1, 1, 1, 2, 3, 10]) {
        change(random, &mut piece);
    }
    piece
}

fn change(random: &mut Random, piece: &mut Piece) {
    let event = random.below(piece.words.len().max(1) as u64) as usize;
    let words = piece.words.get_mut(event);
    let deltas = piece.deltas.get_mut(event);
    match (random.below(16), words, deltas) {
        (0, Some(word), _) => *word = values::word(random),
        (1, Some(word), _) => *word ^= 1 << random.below(32),
        (2..7, Some(word), _) => *word = values::good_word(random),
        (7, _, Some(delta)) => *delta = values::delta(random),
        (8, _, Some(delta)) => *delta ^= 1 << random.below(29),
        (9..13, _, Some(delta)) => *delta = values::small_delta(random),
        (13, ..) => resize(random, piece),
        _ => piece.sizes[0] = values::division(random),
    }
}

/// About as many tracks or events as are admitted, few of them notes.
fn huge(random: &mut Random) -> Piece {
    let (tracks, events) = match random.once_in(2) {
        true => (random.between(65_534, 65_536), random.below(40)),
        false => (random.between(1, 3), random.between(499_999, 500_002)),
    };
    let mut list = vec![vec![]; tracks as usize];
    for _ in 0..events {
        let word = match random.once_in(50) {
            true => values::good_word(random),
            false => random.pick(&[0, 1 << 24, 0x0b00_0740, 0x0e09_0040]),
        };
        list[random.below(tracks) as usize].push((random.below(3) as u32, word));
    }
    Piece::of_tracks(values::division(random), &list)
}

/// One array longer or shorter, or one size different.
fn resize(random: &mut Random, piece: &mut Piece) {
    let at = random.below(piece.sizes.len().max(1) as u64) as usize;
    match (random.below(8), piece.sizes.get_mut(at)) {
        (0, _) => drop(piece.deltas.pop()),
        (1, _) => drop(piece.words.pop()),
        (2, _) => piece.deltas.push(values::delta(random)),
        (3, _) => piece.words.push(values::word(random)),
        (4, _) => drop(piece.sizes.pop()),
        (5, _) => piece.sizes.push(values::number(random)),
        (6, Some(size)) => *size = size.wrapping_add(random.pick(&[1, u32::MAX, 65_536, 1 << 31])),
        (_, Some(size)) => *size = values::number(random),
        _ => {}
    }
}

fn length(random: &mut Random) -> usize {
    let length = match random.below(40) {
        0 => random.between(1_000, 4_000),
        1..8 => random.below(4),
        8..16 => random.between(30, 100),
        _ => random.below(30),
    };
    length as usize
}
