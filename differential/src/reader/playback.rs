//! The chords that one voice plays.

use super::items::Placed;

#[derive(Debug, Clone, Copy, PartialEq, Eq)]
pub struct Chord {
    pub start: u64,
    pub end: u64,
    /// Bit k for key k.
    pub keys: u128,
}

impl Chord {
    pub fn has(&self, key: u8) -> bool {
        self.keys >> key & 1 == 1
    }
}

/// "An item without tie-in that is no rest opens a chord with its start and keys, one with tie-in prolongs the voice's last
/// chord, and a chord's end is its last piece's." Where the ties are right there is a last chord.
pub fn chords(voice: &[Placed]) -> Vec<Chord> {
    let mut chords: Vec<Chord> = Vec::new();
    for &Placed { start, end, item } in voice.iter().filter(|placed| !placed.item.rest) {
        match chords.last_mut() {
            Some(last) if item.tie_in => last.end = end,
            _ => {
                let keys = item.keys;
                chords.push(Chord { start, end, keys });
            }
        }
    }
    chords
}
