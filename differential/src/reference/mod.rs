//! The reference itself. The items come from its files at build time; `transcribe` and `report`
//! are whole files of it. `ask` turns its answers into plain data.

mod ask;
mod leftovers;
mod stand_in;
mod steps;
pub mod times;
mod voices;

mod serialize {
    include!(concat!(env!("OUT_DIR"), "/serialize.rs"));
}

pub use ask::{answers, beats, diagnostics, import, spelling, voices};
pub use voices::{Chord, Snapped, Voices};

// The names that the reference's own file imports.
use acorde_core::{
    Clef, MidiAftertouch, MidiControlChange, MidiPitchBend, MidiProgramChange, Part, Pitch, Score,
    Staff, Step, TimeSignature,
};
use midly::{MetaMessage, MidiMessage, Smf, Timing, TrackEventKind};
use report::Diagnostic;
use stand_in::{Error, MAX_INPUT_BYTES, MAX_MIDI_EVENTS};

include!(concat!(env!("OUT_DIR"), "/whole.rs"));
include!(concat!(env!("OUT_DIR"), "/midi.rs"));
