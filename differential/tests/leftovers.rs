//! What no item took: worked out by hand, and again span by span; what the run reaches, and that it sees faults.

use differential::answers::{Bar, Import};
use differential::leftovers::Tally;
use differential::piece::{Piece, word};
use differential::reader::values;
use differential::reference::{self, Chord};
use differential::{generate, packed};

fn on(delta: u32, key: u8) -> (u32, u32) {
    (delta, word(9, 0, key, 64))
}

fn off(delta: u32, key: u8) -> (u32, u32) {
    (delta, word(8, 0, key, 64))
}

fn meter(upper: u8, power: u8) -> (u32, u32) {
    (0, word(3, upper, power, 0))
}

/// The counts and the leftovers of the only part.
#[track_caller]
fn gives(piece: Piece, counts: &[u32], leftovers: &[u32]) {
    let import = reference::import(&piece).expect("a piece with notes");
    assert_eq!(import.parts.len(), 1);
    let part = &import.parts[0];
    assert_eq!(packed::staff(&part.staff).counts, counts);
    assert_eq!(packed::leftovers(&part.leftovers), leftovers);
    #[cfg(feature = "library")]
    assert_eq!(differential::compare::piece(&piece), Ok(()));
}

/// At 12 ticks per quarter a note from 1 to 6 is off, so that the grid is 1. Before it 1 tick is dropped; of its 5 one 16th
/// takes 3; the 42 behind it are a dotted half and an eighth.
#[test]
fn twelve_ticks_per_quarter() {
    let piece = Piece::of_tracks(12, &[vec![on(1, 60), off(5, 60)]]);
    gives(piece, &[3, 0, 0, 0], &[3, 0, 0, 0]);
}

/// Bars of 3 ticks, grid 1. Voice 1 sounds from 0 to 2 and has no item: all 3 are left. In the second bar voice 0 sounds
/// from 4 to 5 and has none either.
#[test]
fn sounding_without_items() {
    let first = [meter(1, 4), on(0, 60), on(0, 50), off(2, 50), off(1, 60)];
    let events = first.into_iter().chain([on(1, 62), off(1, 62)]);
    let piece = Piece::of_tracks(12, &[events.collect()]);
    gives(piece, &[1, 0, 0, 0, 0, 0, 0, 0], &[0, 3, 0, 0, 3, 0, 0, 0]);
}

/// Bars of 2 ticks, where the smallest value has 5: voice 0 has no item, whether it sounds, as in the last bar, or not.
#[test]
fn voice_0_at_rest() {
    let piece = Piece::of_tracks(5, &[vec![meter(1, 3), on(4, 60), off(2, 60)]]);
    gives(piece, &[0; 12], &[2, 0, 0, 0, 2, 0, 0, 0, 2, 0, 0, 0]);
}

#[test]
fn nothing_is_left_of_an_even_part() {
    let piece = Piece::of_tracks(480, &[vec![on(7, 60), off(500, 60)]]);
    gives(piece, &[2, 0, 0, 0], &[0; 4]);
}

/// What the written values leave of a span, the longest that fits taken again and again.
fn span_left(quarter: u64, mut ticks: u64) -> u64 {
    let values = || (0..=8).flat_map(|code| [(code, true), (code, false)]);
    let fitting = |ticks: u64| {
        let lengths = values().filter_map(|(code, dotted)| values::length(code, dotted, quarter));
        lengths.filter(|length| *length <= ticks).max()
    };
    while let Some(length) = fitting(ticks) {
        ticks -= length;
    }
    ticks
}

/// What the chords and gaps of a voice leave of a bar; nothing where it is not voice 0 and does not sound.
fn voice_left(quarter: u64, number: usize, bar: &Bar, chords: &[Chord]) -> u64 {
    let end = bar.start + bar.length;
    let (mut tick, mut left, mut sounds) = (bar.start, 0, false);
    let sounding = chords.iter().filter(|c| bar.start < c.end && c.start < end);
    for chord in sounding {
        let (from, to) = (chord.start.max(bar.start), chord.end.min(end));
        left += span_left(quarter, from - tick) + span_left(quarter, to - from);
        (tick, sounds) = (to, true);
    }
    match number == 0 || sounds {
        true => left + span_left(quarter, end - tick),
        false => 0,
    }
}

fn import(piece: &Piece) -> Import {
    reference::import(piece).expect("a piece with notes")
}

#[test]
fn spans_leave_the_same() {
    for index in 0..1_500 {
        let piece = generate::halved(2, index);
        let (import, voices) = (import(&piece), reference::voices(&piece).expect("voices"));
        for (part, voices) in import.parts.iter().zip(voices) {
            for (bar, leftovers) in import.bars.iter().zip(&part.leftovers) {
                for (number, chords) in voices.chords.iter().enumerate() {
                    let wanted = voice_left(piece.ticks_per_quarter(), number, bar, chords);
                    assert_eq!(
                        u64::from(leftovers[number].ticks),
                        wanted,
                        "piece 2 {index}"
                    );
                }
            }
        }
    }
}

#[test]
fn pieces_reach_leftovers() {
    let mut tally = Tally::default();
    for index in 0..2_000 {
        let piece = generate::halved(1, index);
        tally.add(&piece, &import(&piece));
    }
    println!("{tally}");
    for half in &tally.0 {
        assert_eq!(half.pieces, 1_000);
        assert!(half.even_parts > 100);
        assert!(half.left_with_items > 100 && half.left_resting > 100);
        assert!(half.pieces_without > 5);
    }
    let others = &tally.0[1];
    assert!(others.uneven_left > 100 && others.pieces_without > 50);
}

/// Answers with a fault in their leftovers: the library's must differ from them.
#[cfg(feature = "library")]
mod faults {
    use super::import;
    use differential::answers::{Answers, Item, Leftover};
    use differential::compare::{self, Rooms};
    use differential::generate;

    /// The fault shows within some pieces, and is said to be in the leftovers. It is given the voice's number, its items and
    /// the bar's length.
    fn is_seen(fault: impl Fn(&mut Leftover, usize, &[Item], u64)) {
        let mut tried = (0..400).map(|index| {
            let piece = generate::halved(3, index);
            let (right, mut wrong) = (import(&piece), import(&piece));
            for part in &mut wrong.parts {
                let voices = part.leftovers.iter_mut().zip(&part.staff);
                for (bar, (leftovers, measure)) in right.bars.iter().zip(voices) {
                    for (number, leftover) in leftovers.iter_mut().enumerate() {
                        fault(leftover, number, &measure[number], bar.length);
                    }
                }
            }
            let differs = wrong != right;
            let answers = Answers {
                import: Ok(wrong),
                diagnostics: differential::reference::diagnostics(&piece),
            };
            let said = compare::answers(&piece, &answers, Rooms::Exact).err();
            assert_eq!(said.is_some(), differs, "piece 3 {index}: {said:?}");
            said
        });
        let said = tried.find_map(|said| said).expect("nothing is seen");
        assert!(said.contains("leftovers: element "), "{said}");
    }

    #[test]
    fn none_where_no_item_is() {
        is_seen(|leftover, _, items, _| {
            if items.is_empty() {
                leftover.ticks = 0;
            }
        });
    }

    #[test]
    fn none_where_voice_0_rests() {
        is_seen(|leftover, number, _, _| {
            if number == 0 && !leftover.sounds {
                leftover.ticks = 0;
            }
        });
    }

    #[test]
    fn a_bar_where_nothing_sounds() {
        is_seen(|leftover, number, _, length| {
            if number > 0 && !leftover.sounds {
                leftover.ticks = length as u32;
            }
        });
    }

    #[test]
    fn one_tick_more() {
        is_seen(|leftover, _, _, _| {
            if leftover.ticks > 0 {
                leftover.ticks += 1;
            }
        });
    }
}
