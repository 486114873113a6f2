//! Pieces are made small, and what was asked for stays true of them.

use differential::piece::{Piece, sounds};
use differential::{generate, refusals, shrink};

/// The tick of the last event of the first track.
fn last_tick(piece: &Piece) -> u32 {
    let track = piece.tracks().into_iter().next().unwrap_or_default();
    track.iter().map(|event| event.0).sum()
}

#[test]
fn two_notes_and_a_tick_remain() {
    let test = |piece: &Piece| {
        let notes = piece.words.iter().filter(|word| sounds(**word)).count();
        notes >= 2 && last_tick(piece) >= 77
    };
    let pieces = (0..500).map(|index| generate::numbered(1, index));
    let admitted = pieces.filter(|piece| refusals::admission(piece).is_none());
    let mut tried = 0;
    for piece in admitted.filter(test) {
        let small = shrink::smallest(&piece, test);
        assert!(test(&small));
        assert!(small.words.len() <= 3, "{}", small.print());
        assert_eq!(last_tick(&small), 77, "{}", small.print());
        tried += 1;
    }
    assert!(tried > 100);
}

#[test]
fn a_piece_without_sizes_stays() {
    let piece = Piece::default();
    assert_eq!(shrink::smallest(&piece, |_| true), piece);
}
