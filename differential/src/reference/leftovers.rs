//! Leftovers, which the reference does not have: told from its own bars, voices and staff.

use super::{Chord, beats};
use crate::answers::{Bar, Item, Leftover, Measure};

/// Voice by voice of each bar of a part. Of voice 0 and of a voice that sounds in the bar: the bar's length less the written
/// lengths of the voice's items. Of the others none.
pub fn leftovers(
    quarter: u64,
    bars: &[Bar],
    voices: &[Vec<Chord>; 4],
    staff: &[Measure],
) -> Vec<[Leftover; 4]> {
    let mut list = vec![[Leftover::default(); 4]; bars.len()];
    for (number, chords) in voices.iter().enumerate() {
        for index in chords.iter().flat_map(|chord| bars_of(bars, chord)) {
            list[index][number].sounds = true;
        }
    }
    for ((bar, measure), row) in bars.iter().zip(staff).zip(&mut list) {
        for (number, (items, leftover)) in measure.iter().zip(row).enumerate() {
            if number == 0 || leftover.sounds {
                let ticks = bar.length.checked_sub(written(quarter, items));
                let ticks = ticks.expect("no more is written than the bar has");
                leftover.ticks = u32::try_from(ticks).expect("a bar's ticks");
            } else {
                assert!(items.is_empty(), "items in a voice that does not sound");
            }
        }
    }
    list
}

/// The bars in which a chord sounds.
fn bars_of(bars: &[Bar], chord: &Chord) -> std::ops::Range<usize> {
    let first = bars.partition_point(|bar| bar.start + bar.length <= chord.start);
    let behind = bars.partition_point(|bar| bar.start < chord.end);
    first..behind
}

/// The written length of some items, in ticks.
fn written(quarter: u64, items: &[Item]) -> u64 {
    let ticks = |item: &Item| {
        let beats = beats(item.code, item.dots).expect("a written value");
        let ticks = beats * quarter as f64;
        assert_eq!(ticks.fract(), 0.0, "whole ticks");
        ticks as u64
    };
    items.iter().map(ticks).sum()
}
