//! A look at the voices before they are cut into bars, by the reference's own functions. Leftovers,
//! the counts of what the generator reaches and one example need it.

use super::RawNote;

include!(concat!(env!("OUT_DIR"), "/voices.rs"));

/// The voices of one part.
#[derive(Debug, Clone, PartialEq, Eq)]
pub struct Voices {
    pub grid: u64,
    pub chords: [Vec<Chord>; 4],
    /// The raw notes in their order.
    pub notes: Vec<Snapped>,
    /// The largest raw end.
    pub end: u64,
}

#[derive(Debug, Clone, PartialEq, Eq)]
pub struct Snapped {
    pub raw_start: u64,
    pub start: u64,
    pub end: u64,
    /// The snapped end was less than a grid step behind the start.
    pub raised: bool,
    pub key: u8,
    pub channel: u8,
}

#[derive(Debug, Clone, PartialEq, Eq)]
pub struct Chord {
    pub start: u64,
    pub end: u64,
    pub keys: Vec<u8>,
    pub unpitched: bool,
}

pub(super) fn voices(raw: &[RawNote], ppq: u64) -> Voices {
    let grid = grid_ticks(raw, ppq);
    let plain = |chord: VoiceChord| Chord {
        start: chord.start,
        end: chord.end,
        keys: chord.keys,
        unpitched: chord.unpitched,
    };
    let snapped = |note: &RawNote| {
        let (start, end) = (snap(note.start, grid), snap(note.end, grid));
        Snapped {
            raw_start: note.start,
            start,
            end: end.max(start + grid),
            raised: end < start + grid,
            key: note.midi,
            channel: note.channel,
        }
    };
    Voices {
        grid,
        notes: raw.iter().map(snapped).collect(),
        chords: assign_voices(raw, grid).map(|voice| voice.into_iter().map(plain).collect()),
        end: raw.iter().map(|note| note.end).max().unwrap_or(0),
    }
}
