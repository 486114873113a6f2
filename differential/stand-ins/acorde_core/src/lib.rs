//! Stand-in for the score model: `Duration` and `Pitch` are the reference's own files, the
//! containers around them have only the fields that the MIDI import sets.

include!(concat!(env!("OUT_DIR"), "/whole.rs"));

pub use duration::Duration;
pub use pitch::{Pitch, Step};

#[derive(Debug, Clone, PartialEq)]
pub struct TimeSignature {
    pub numerator: u8,
    pub denominator: u8,
}

#[derive(Debug, Clone, PartialEq)]
pub struct KeySignature {
    pub fifths: i8,
    pub mode: String,
}

#[derive(Debug, Clone, Default)]
pub struct Score {
    pub metadata: ScoreMetadata,
    pub settings: ScoreSettings,
    pub parts: Vec<Part>,
}

#[derive(Debug, Clone, Default)]
pub struct ScoreMetadata {
    pub title: String,
}

#[derive(Debug, Clone)]
pub struct ScoreSettings {
    pub tempo_bpm: u16,
    pub time_signature: TimeSignature,
    pub key_signature: KeySignature,
}

impl Default for ScoreSettings {
    /// The import always sets tempo and meter. The mode stays empty where it sets no key.
    fn default() -> Self {
        Self {
            tempo_bpm: 0,
            time_signature: TimeSignature {
                numerator: 0,
                denominator: 0,
            },
            key_signature: KeySignature {
                fifths: 0,
                mode: String::new(),
            },
        }
    }
}

#[derive(Debug, Clone)]
pub struct Part {
    pub midi_channel: u8,
    pub midi_program: u8,
    pub midi_pitch_bends: Vec<MidiPitchBend>,
    pub midi_control_changes: Vec<MidiControlChange>,
    pub midi_program_changes: Vec<MidiProgramChange>,
    pub midi_aftertouch: Vec<MidiAftertouch>,
    pub staves: Vec<Staff>,
}

impl Part {
    /// Channel 0 and program 0, as in the score model.
    pub fn new(_name: &str, _short_name: &str) -> Self {
        Self {
            midi_channel: 0,
            midi_program: 0,
            midi_pitch_bends: Vec::new(),
            midi_control_changes: Vec::new(),
            midi_program_changes: Vec::new(),
            midi_aftertouch: Vec::new(),
            staves: Vec::new(),
        }
    }
}

#[derive(Debug, Clone)]
pub struct MidiPitchBend {
    pub tick: u64,
    pub channel: u8,
    pub value: i16,
}

#[derive(Debug, Clone)]
pub struct MidiControlChange {
    pub tick: u64,
    pub channel: u8,
    pub controller: u8,
    pub value: u8,
}

#[derive(Debug, Clone)]
pub struct MidiProgramChange {
    pub tick: u64,
    pub channel: u8,
    pub program: u8,
}

#[derive(Debug, Clone)]
pub struct MidiAftertouch {
    pub tick: u64,
    pub channel: u8,
    pub key: Option<u8>,
    pub value: u8,
}

#[derive(Debug, Clone)]
pub enum Clef {
    Treble,
}

#[derive(Debug, Clone)]
pub struct Staff {
    pub measures: Vec<Measure>,
}

impl Staff {
    pub fn new(_clef: Clef) -> Self {
        Self {
            measures: Vec::new(),
        }
    }
}

#[derive(Debug, Clone)]
pub struct Measure {
    pub number: u32,
    pub time_sig: Option<TimeSignature>,
    pub key_sig: Option<KeySignature>,
    pub tempo: Option<u16>,
    pub voices: [Vec<Note>; 4],
}

impl Measure {
    /// Four empty voices: the import overwrites what the score model puts there.
    pub fn empty(_numerator: u8, _denominator: u8) -> Self {
        Self {
            number: 0,
            time_sig: None,
            key_sig: None,
            tempo: None,
            voices: Default::default(),
        }
    }
}

#[derive(Debug, Clone)]
pub struct Note {
    pub is_rest: bool,
    pub is_unpitched: bool,
    pub pitches: Vec<Pitch>,
    pub duration: Duration,
    pub dot_count: u8,
    pub tie_start: bool,
    pub tie_end: bool,
}

impl Note {
    pub fn new(pitch: Pitch, duration: Duration) -> Self {
        Self {
            is_rest: false,
            pitches: vec![pitch],
            ..Self::rest(duration)
        }
    }

    pub fn rest(duration: Duration) -> Self {
        Self {
            is_rest: true,
            is_unpitched: false,
            pitches: Vec::new(),
            duration,
            dot_count: 0,
            tie_start: false,
            tie_end: false,
        }
    }
}
