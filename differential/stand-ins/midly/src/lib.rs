//! Stand-in for `midly`: its types as far as the import reads them.
//!
//! `Smf::parse` takes no MIDI file. It takes the bytes that `record` makes of a piece's three
//! arrays and hands the events over as they stand.

pub mod num {
    //! Numbers of few bits. The piece was checked before, so no range is checked here.
    #![allow(non_camel_case_types)]

    macro_rules! number {
        ($($name:ident: $int:ty),*) => {$(
            #[derive(Debug, Clone, Copy, PartialEq, Eq)]
            pub struct $name($int);

            impl $name {
                pub fn new(value: $int) -> Self {
                    Self(value)
                }

                pub fn as_int(self) -> $int {
                    self.0
                }
            }
        )*};
    }

    number!(u4: u8, u7: u8, u14: u16, u15: u16, u24: u32, u28: u32);
}

use num::{u4, u7, u14, u15, u24, u28};

#[derive(Debug)]
pub struct Smf<'a> {
    pub header: Header,
    pub tracks: Vec<Vec<TrackEvent<'a>>>,
}

#[derive(Debug)]
pub struct Header {
    pub timing: Timing,
}

#[derive(Debug)]
pub enum Timing {
    Metrical(u15),
    Timecode(u8, u8),
}

#[derive(Debug)]
pub struct TrackEvent<'a> {
    pub delta: u28,
    pub kind: TrackEventKind<'a>,
}

#[derive(Debug)]
pub enum TrackEventKind<'a> {
    Midi { channel: u4, message: MidiMessage },
    SysEx(&'a [u8]),
    Escape(&'a [u8]),
    Meta(MetaMessage<'a>),
}

#[derive(Debug)]
pub enum MetaMessage<'a> {
    Text(&'a [u8]),
    TrackName(&'a [u8]),
    EndOfTrack,
    Tempo(u24),
    TimeSignature(u8, u8, u8, u8),
    KeySignature(i8, bool),
    SequencerSpecific(&'a [u8]),
}

#[derive(Debug, Clone, Copy, PartialEq, Eq)]
pub enum MidiMessage {
    NoteOff { key: u7, vel: u7 },
    NoteOn { key: u7, vel: u7 },
    Aftertouch { key: u7, vel: u7 },
    Controller { controller: u7, value: u7 },
    ProgramChange { program: u7 },
    ChannelAftertouch { vel: u7 },
    PitchBend { bend: PitchBend },
}

#[derive(Debug, Clone, Copy, PartialEq, Eq)]
pub struct PitchBend(pub u14);

impl PitchBend {
    /// The signed value, 0 in the middle.
    pub fn as_int(self) -> i16 {
        self.0.as_int() as i16 - 8192
    }
}

/// What `parse` says of bytes that `record` did not make.
#[derive(Debug)]
pub struct Error;

impl std::fmt::Display for Error {
    fn fmt(&self, f: &mut std::fmt::Formatter<'_>) -> std::fmt::Result {
        f.write_str("not a record")
    }
}

const MARKER: u32 = 5;
const MARKER_PREFIX: &[u8] = b"ACRD1";

/// A piece's arrays as bytes: the sizes, then delta and word of each event, numbers in four
/// bytes. The text of a marker follows its word, so that the event can borrow it.
pub fn record(sizes: &[u32], deltas: &[u32], words: &[u32]) -> Vec<u8> {
    let mut bytes = Vec::with_capacity(4 * sizes.len() + 8 * words.len());
    for size in sizes {
        bytes.extend(size.to_le_bytes());
    }
    for (delta, word) in deltas.iter().zip(words) {
        bytes.extend(delta.to_le_bytes());
        bytes.extend(word.to_le_bytes());
        if word >> 24 == MARKER {
            bytes.extend(MARKER_PREFIX);
            bytes.extend(&word.to_be_bytes()[1..3]);
        }
    }
    bytes
}

impl<'a> Smf<'a> {
    /// The piece that `record` wrote.
    pub fn parse(data: &'a [u8]) -> Result<Smf<'a>, Error> {
        let mut reader = Reader(data);
        let division = reader.number()? as u16;
        let timing = if division & 0x8000 == 0 {
            Timing::Metrical(u15::new(division))
        } else {
            let [frames, parts] = division.to_be_bytes();
            Timing::Timecode(frames, parts)
        };
        let track_count = reader.number()?;
        let counts = (0..track_count)
            .map(|_| reader.number())
            .collect::<Result<Vec<_>, _>>()?;
        let tracks = counts
            .into_iter()
            .map(|count| (0..count).map(|_| reader.event()).collect())
            .collect::<Result<Vec<_>, _>>()?;
        Ok(Smf {
            header: Header { timing },
            tracks,
        })
    }
}

struct Reader<'a>(&'a [u8]);

impl<'a> Reader<'a> {
    fn bytes(&mut self, count: usize) -> Result<&'a [u8], Error> {
        let (taken, rest) = self.0.split_at_checked(count).ok_or(Error)?;
        self.0 = rest;
        Ok(taken)
    }

    fn number(&mut self) -> Result<u32, Error> {
        let bytes = self.bytes(4)?.try_into().map_err(|_| Error)?;
        Ok(u32::from_le_bytes(bytes))
    }

    fn event(&mut self) -> Result<TrackEvent<'a>, Error> {
        let delta = u28::new(self.number()?);
        let word = self.number()?;
        let [kind, a, b, c] = word.to_be_bytes();
        let midi = |message| TrackEventKind::Midi {
            channel: u4::new(a),
            message,
        };
        let (first, second) = (u7::new(b), u7::new(c));
        let kind = match kind {
            0 => TrackEventKind::Meta(MetaMessage::Text(&[])),
            1 => TrackEventKind::SysEx(&[]),
            2 => TrackEventKind::Meta(MetaMessage::Tempo(u24::new(word & 0xff_ffff))),
            3 => TrackEventKind::Meta(MetaMessage::TimeSignature(a, b, 24, 8)),
            4 => TrackEventKind::Meta(MetaMessage::KeySignature(a as i8, b == 1)),
            5 => {
                let text = self.bytes(MARKER_PREFIX.len() + 2)?;
                TrackEventKind::Meta(MetaMessage::SequencerSpecific(text))
            }
            6 => TrackEventKind::Meta(MetaMessage::EndOfTrack),
            8 => midi(MidiMessage::NoteOff {
                key: first,
                vel: second,
            }),
            9 => midi(MidiMessage::NoteOn {
                key: first,
                vel: second,
            }),
            10 => midi(MidiMessage::Aftertouch {
                key: first,
                vel: second,
            }),
            11 => midi(MidiMessage::Controller {
                controller: first,
                value: second,
            }),
            12 => midi(MidiMessage::ProgramChange { program: first }),
            13 => midi(MidiMessage::ChannelAftertouch { vel: first }),
            14 => {
                let bend = u14::new(u16::from(b) + 128 * u16::from(c));
                midi(MidiMessage::PitchBend {
                    bend: PitchBend(bend),
                })
            }
            _ => return Err(Error),
        };
        Ok(TrackEvent { delta, kind })
    }
}
