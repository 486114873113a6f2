//! How long the reference takes, in milliseconds of the thread's own CPU time. What it makes is freed after the time is
//! taken.

use super::transcribe::{MidiBar, apply_bar_changes, transcribe_track};
use super::{
    RawNote, collect_aftertouch, collect_control_changes, collect_key_changes,
    collect_meta_changes, collect_pitch_bends, collect_program_changes, collect_raw_notes,
    midi_to_pitch, recognized_auxiliary_channels, steps,
};
use crate::clock::timed;
use crate::piece::Piece;
use acorde_core::{Measure, TimeSignature};
use midly::Smf;

fn record(piece: &Piece) -> Vec<u8> {
    midly::record(&piece.sizes, &piece.deltas, &piece.words)
}

/// What the file parser takes for a piece.
pub fn parse(piece: &Piece) -> f64 {
    let bytes = record(piece);
    timed(|| Smf::parse(&bytes).expect("a record is read")).0
}

/// The import and the loss report.
pub fn import(piece: &Piece) -> f64 {
    let bytes = record(piece);
    timed(|| (super::parse_midi(&bytes), super::loss_diagnostics(&bytes))).0
}

/// The bars and their marks alone, the parsed file given.
pub fn bars(piece: &Piece) -> f64 {
    let bytes = record(piece);
    let smf = Smf::parse(&bytes).expect("a record is read");
    let made = timed(|| {
        let (tempos, bars, _) = timeline(&smf);
        let keys = collect_key_changes(&smf.tracks[0]);
        let mut measures: Vec<_> = bars.iter().map(|_| Measure::empty(4, 4)).collect();
        apply_bar_changes(&mut measures, &bars, &tempos, &keys);
        measures
    });
    made.0
}

/// One part's staff, the parsed file given; and `transcribe_track` alone.
pub fn staff(piece: &Piece, part: usize) -> (f64, f64) {
    let bytes = record(piece);
    let smf = Smf::parse(&bytes).expect("a record is read");
    let quarter = steps::ticks_per_quarter(&smf);
    let (before, (_, bars, parts)) = timed(|| timeline(&smf));
    let made = timed(|| transcribe_track(&parts[part], quarter, &bars, midi_to_pitch));
    (before + made.0, made.0)
}

/// The automation of the first part, the parsed file given: its notes are collected too, since they make it a part.
pub fn automation(piece: &Piece) -> f64 {
    let bytes = record(piece);
    let smf = Smf::parse(&bytes).expect("a record is read");
    let quarter = steps::ticks_per_quarter(&smf);
    let made = timed(|| {
        let mut tracks = smf.tracks.iter();
        let track = tracks.find(|track| !collect_raw_notes(track).is_empty());
        let track = track.expect("a part has notes");
        let mirrored = recognized_auxiliary_channels(track);
        let kept = |channel: u8| !mirrored[usize::from(channel)];
        let mut bends = collect_pitch_bends(track, quarter);
        bends.retain(|event| kept(event.channel));
        let mut controllers = collect_control_changes(track, quarter);
        controllers.retain(|event| kept(event.channel));
        let mut programs = collect_program_changes(track, quarter);
        programs.retain(|event| kept(event.channel));
        let mut pressures = collect_aftertouch(track, quarter);
        pressures.retain(|event| kept(event.channel));
        (bends, controllers, programs, pressures)
    });
    made.0
}

/// The loss report, which parses the file.
pub fn diagnostics(piece: &Piece) -> f64 {
    let bytes = record(piece);
    timed(|| super::loss_diagnostics(&bytes)).0
}

type Timeline = (Vec<(u64, u16)>, Vec<MidiBar>, Vec<Vec<RawNote>>);

/// Tempos, bars and the parts' raw notes.
fn timeline(smf: &Smf) -> Timeline {
    let (tempos, meters) = collect_meta_changes(&smf.tracks[0]);
    let parts = steps::raw_parts(smf);
    let first = meters.iter().find(|change| change.0 == 0);
    let initial = first.map_or((4, 4), |(_, time)| (time.numerator, time.denominator));
    let initial = TimeSignature {
        numerator: initial.0,
        denominator: initial.1,
    };
    let bars = steps::bars(smf, &initial, &meters, &parts);
    (tempos, bars, parts)
}
