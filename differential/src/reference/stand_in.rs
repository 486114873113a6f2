//! Stand-ins for the io crate's own error and limits.

#[derive(Debug)]
#[allow(dead_code)]
pub enum Error {
    TooLarge(usize),
    Empty,
    Midi(String),
}

/// The bytes handed over are not a file, so their number says nothing.
pub const MAX_INPUT_BYTES: usize = usize::MAX / 2;

/// Document 01, number 3.
pub const MAX_MIDI_EVENTS: usize = 500_000;
