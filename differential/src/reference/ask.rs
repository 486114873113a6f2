//! Asks the reference about a piece and gives its answers as plain data.

use super::{Error, MAX_MIDI_EVENTS, RawNote, Voices, leftovers, steps};
use crate::answers::{
    Answers, Automation, Bar, Diagnostic, Entry, Head, Import, Item, Key, Measure, Part, Spelled,
};
use crate::piece::{Piece, word};
use crate::refusals;
use acorde_core::{Duration, KeySignature, Note, Pitch, Score};
use midly::Smf;

const DURATIONS: [Duration; 10] = [
    Duration::Longa,
    Duration::Breve,
    Duration::Whole,
    Duration::Half,
    Duration::Quarter,
    Duration::Eighth,
    Duration::Sixteenth,
    Duration::ThirtySecond,
    Duration::SixtyFourth,
    Duration::HundredTwentyEighth,
];

/// All answers to one piece.
pub fn answers(piece: &Piece) -> Answers {
    Answers {
        import: import(piece),
        diagnostics: diagnostics(piece),
    }
}

/// Heads, bars, staffs and automation by `parse_midi`. Pieces that 1 to 5 turn back are not
/// handed over: at division 0 it would never return.
pub fn import(piece: &Piece) -> Result<Import, u8> {
    let bytes = admitted(piece)?;
    match super::parse_midi(&bytes) {
        Ok(score) => {
            assert_eq!(refusals::import(piece), None);
            assert_eq!(refusals::part_count(piece), score.parts.len());
            Ok(plain_import(score, &bytes))
        }
        Err(Error::Empty) => {
            assert_eq!(refusals::import(piece), Some(6));
            Err(6)
        }
        Err(error) => panic!("the reference says {error:?}"),
    }
}

/// The loss report by `loss_diagnostics`.
pub fn diagnostics(piece: &Piece) -> Result<Vec<Diagnostic>, u8> {
    let bytes = admitted(piece)?;
    let report = super::loss_diagnostics(&bytes).expect("a record is read");
    let mut list: Vec<_> = report.iter().map(plain_diagnostic).collect();
    // Notes without an off come in a hash map's order, track by track.
    for run in list.chunk_by_mut(|a, b| a.code == 5 && b.code == 5 && a.track == b.track) {
        if run[0].code == 5 {
            run.sort_by_key(|d| (d.channel, d.key, d.event));
        }
    }
    Ok(list)
}

/// The voices of each part before they are cut into bars.
pub fn voices(piece: &Piece) -> Result<Vec<Voices>, u8> {
    if let Some(number) = refusals::import(piece) {
        return Err(number);
    }
    let bytes = admitted(piece)?;
    let smf = Smf::parse(&bytes).expect("a record is read");
    let ppq = steps::ticks_per_quarter(&smf);
    let parts = steps::raw_parts(&smf);
    Ok(parts
        .iter()
        .map(|raw| super::voices::voices(raw, ppq))
        .collect())
}

/// Length in quarters of a written value.
pub fn beats(code: u8, dots: u8) -> Result<f64, u8> {
    match DURATIONS.get(usize::from(code)) {
        Some(duration) if dots <= 3 => Ok(duration.beats(dots)),
        _ => Err(10),
    }
}

/// How a key is spelled.
pub fn spelling(key: u8) -> Result<Spelled, u8> {
    if key > 127 {
        return Err(10);
    }
    let pitch = super::midi_to_pitch(key);
    assert_eq!(pitch.to_midi(), i16::from(key));
    Ok(spelled(&pitch))
}

/// The bytes handed over for a piece that 1 to 5 let pass.
fn admitted(piece: &Piece) -> Result<Vec<u8>, u8> {
    let bytes = || midly::record(&piece.sizes, &piece.deltas, &piece.words);
    match refusals::admission(piece) {
        None => Ok(bytes()),
        Some(number) => {
            // The import has this limit too, and asks it before it looks at an event.
            if number == 3
                && let Ok(smf) = Smf::parse(&bytes())
            {
                assert!(smf.tracks.iter().map(Vec::len).sum::<usize>() > MAX_MIDI_EVENTS);
                assert!(matches!(super::parse_midi(&bytes()), Err(Error::Midi(_))));
            }
            Err(number)
        }
    }
}

fn plain_import(score: Score, bytes: &[u8]) -> Import {
    let settings = &score.settings;
    let head = Head {
        tempo: settings.tempo_bpm,
        upper: settings.time_signature.numerator,
        lower: settings.time_signature.denominator,
        key: Some(&settings.key_signature)
            .filter(|key| !key.mode.is_empty())
            .map(plain_key),
    };
    let smf = Smf::parse(bytes).expect("a record is read");
    let raw = steps::raw_parts(&smf);
    let bars = plain_bars(&score, &smf, &raw);
    let quarter = steps::ticks_per_quarter(&smf);
    let parts = score.parts.iter().zip(&raw);
    let parts = parts.map(|(part, raw)| plain_part(part, raw, quarter, &bars));
    Import {
        head,
        parts: parts.collect(),
        bars,
    }
}

/// Starts and lengths by `midi_bars`, marks from the measures; every part has the same.
fn plain_bars(score: &Score, smf: &Smf, parts: &[Vec<RawNote>]) -> Vec<Bar> {
    let (_, meters) = super::collect_meta_changes(&smf.tracks[0]);
    let bars = steps::bars(smf, &score.settings.time_signature, &meters, parts);
    let first = &score.parts[0].staves[0].measures;
    for part in &score.parts {
        let measures = &part.staves[0].measures;
        assert_eq!(part.staves.len(), 1);
        assert_eq!(measures.len(), bars.len());
        for (index, (measure, other)) in measures.iter().zip(first).enumerate() {
            assert_eq!(measure.number as usize, index + 1);
            assert_eq!(measure.time_sig, other.time_sig);
            assert_eq!(measure.tempo, other.tempo);
            assert_eq!(measure.key_sig, other.key_sig);
        }
    }
    bars.iter()
        .zip(first)
        .map(|(bar, measure)| {
            if let Some(time) = &measure.time_sig {
                assert_eq!(*time, bar.time);
            }
            Bar {
                start: bar.start,
                length: bar.len,
                upper: bar.time.numerator,
                lower: bar.time.denominator,
                printed: measure.time_sig.is_some(),
                tempo: measure.tempo,
                key: measure.key_sig.as_ref().map(plain_key),
            }
        })
        .collect()
}

fn plain_part(part: &acorde_core::Part, raw: &[RawNote], quarter: u64, bars: &[Bar]) -> Part {
    let measures = &part.staves[0].measures;
    let voice = |voice: &Vec<Note>| voice.iter().map(plain_item).collect();
    let measure =
        |measure: &acorde_core::Measure| -> Measure { measure.voices.each_ref().map(voice) };
    let staff: Vec<_> = measures.iter().map(measure).collect();
    let voices = super::voices::voices(raw, quarter).chords;
    Part {
        channel: part.midi_channel,
        program: part.midi_program,
        leftovers: leftovers::leftovers(quarter, bars, &voices, &staff),
        staff,
        automation: plain_automation(part),
    }
}

fn plain_item(note: &Note) -> Item {
    let code = DURATIONS.iter().position(|value| *value == note.duration);
    let keys: Vec<u8> = note.pitches.iter().map(key_of).collect();
    assert!(keys.is_sorted_by(|a, b| a < b), "keys ascend");
    assert_eq!(note.is_rest, keys.is_empty());
    Item {
        code: code.expect("each duration has a code") as u8,
        dots: note.dot_count,
        tie_in: note.tie_end,
        tie_out: note.tie_start,
        unpitched: note.is_unpitched,
        rest: note.is_rest,
        keys,
        spelled: note.pitches.iter().map(spelled).collect(),
    }
}

/// The key that a pitch sounds; it must be spelled as the import spells that key.
fn key_of(pitch: &Pitch) -> u8 {
    let key = u8::try_from(pitch.to_midi()).expect("a key");
    assert_eq!(super::midi_to_pitch(key), *pitch);
    key
}

fn spelled(pitch: &Pitch) -> Spelled {
    Spelled {
        step: pitch.step.to_char(),
        octave: pitch.octave,
        alter: pitch.alter,
    }
}

fn plain_key(key: &KeySignature) -> Key {
    Key {
        fifths: key.fifths,
        minor: key.mode == "minor",
    }
}

fn plain_automation(part: &acorde_core::Part) -> Automation {
    let entry = |tick, word| Entry { tick, word };
    let bends = part.midi_pitch_bends.iter().map(|event| {
        let value = (event.value + 8192) as u16;
        let (low, high) = ((value % 128) as u8, (value / 128) as u8);
        entry(event.tick, word(14, event.channel, low, high))
    });
    let controllers = part.midi_control_changes.iter().map(|event| {
        entry(
            event.tick,
            word(11, event.channel, event.controller, event.value),
        )
    });
    let programs = part
        .midi_program_changes
        .iter()
        .map(|event| entry(event.tick, word(12, event.channel, event.program, 0)));
    let pressures = part.midi_aftertouch.iter().map(|event| {
        let word = match event.key {
            Some(key) => word(10, event.channel, key, event.value),
            None => word(13, event.channel, event.value, 0),
        };
        entry(event.tick, word)
    });
    Automation {
        bends: bends.collect(),
        controllers: controllers.collect(),
        programs: programs.collect(),
        pressures: pressures.collect(),
    }
}

/// Reads the numbers back out of a diagnostic's text.
fn plain_diagnostic(report: &super::Diagnostic) -> Diagnostic {
    let code = match report.code.as_str() {
        "midi.unsupported-smpte-timing" => 1,
        "midi.timing-change-off-measure" => 2,
        "midi.unsupported-system-event" => 3,
        "midi.unmatched-note-off" => 4,
        "midi.unmatched-note-on" => 5,
        other => panic!("no number for {other}"),
    };
    let mut plain = Diagnostic {
        code,
        track: 0,
        event: 0,
        tick: 0,
        channel: 255,
        key: 255,
    };
    let location = report.source_location.as_ref().expect("a place");
    if code == 1 {
        assert_eq!(location, "/header/timing");
        return plain;
    }
    let mut fields = location.split('@');
    let path: Vec<_> = fields.next().unwrap_or("").split('/').collect();
    let ["", "tracks", track, "events", event] = path[..] else {
        panic!("no place in {location}");
    };
    plain.track = track.parse().expect("a track");
    plain.event = event.parse().expect("an event");
    for field in fields {
        match field.split_once('=') {
            Some(("tick", tick)) => plain.tick = tick.parse().expect("a tick"),
            Some(("channel", channel)) => plain.channel = channel.parse().expect("a channel"),
            Some(("key", key)) => plain.key = key.parse().expect("a key"),
            _ => panic!("no field in {location}"),
        }
    }
    plain
}
