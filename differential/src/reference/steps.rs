//! Steps that `parse_midi` takes on its way, by the reference's own functions.

use super::transcribe::{MidiBar, midi_bars};
use super::{MAX_MEASURES, MAX_PARTS, RawNote, collect_raw_notes};
use acorde_core::TimeSignature;
use midly::{Smf, Timing};

pub fn ticks_per_quarter(smf: &Smf) -> u64 {
    match smf.header.timing {
        Timing::Metrical(ticks) => u64::from(ticks.as_int()),
        Timing::Timecode(..) => 480,
    }
}

/// The raw notes of each part.
pub fn raw_parts(smf: &Smf) -> Vec<Vec<RawNote>> {
    smf.tracks
        .iter()
        .map(|track| collect_raw_notes(track))
        .filter(|raw| !raw.is_empty())
        .take(MAX_PARTS)
        .collect()
}

/// The bars of a piece with notes.
pub fn bars(
    smf: &Smf,
    initial: &TimeSignature,
    meters: &[(u64, TimeSignature)],
    parts: &[Vec<RawNote>],
) -> Vec<MidiBar> {
    let ends = parts.iter().flatten().map(|note| note.end);
    midi_bars(
        ticks_per_quarter(smf),
        initial,
        meters,
        ends.max().expect("a part has notes"),
        MAX_MEASURES,
    )
}
