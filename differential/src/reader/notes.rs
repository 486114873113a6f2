//! Raw notes (section 2), the grid and snapping (section 5).

use crate::piece::Piece;

const MOST_PARTS: usize = 32;

/// A note, raw or snapped.
#[derive(Debug, Clone, Copy, PartialEq, Eq)]
pub struct Note {
    pub start: u64,
    pub end: u64,
    pub key: u8,
    pub channel: u8,
}

/// "Parts are the first 32 tracks that have notes."
pub fn of_parts(piece: &Piece) -> Vec<Vec<Note>> {
    let tracks = piece.tracks();
    let notes = tracks.iter().map(|track| of_track(track));
    notes
        .filter(|notes| !notes.is_empty())
        .take(MOST_PARTS)
        .collect()
}

/// "An off takes the oldest pending start of its channel and key", "starts still pending end at the track's last tick".
fn of_track(track: &[(u32, u32)]) -> Vec<Note> {
    let mut tick = 0;
    let mut pending: Vec<Note> = Vec::new();
    let mut notes = Vec::new();
    for &(delta, word) in track {
        tick += u64::from(delta);
        let [kind, channel, key, velocity] = word.to_be_bytes();
        match (kind, velocity) {
            (9, 1..) => pending.push(Note {
                start: tick,
                end: tick,
                key,
                channel,
            }),
            (8 | 9, _) => {
                let oldest = pending
                    .iter()
                    .position(|note| (note.channel, note.key) == (channel, key));
                notes.extend(oldest.map(|index| closed(pending.remove(index), tick)));
            }
            _ => {}
        }
    }
    pending.sort_by_key(|note| note.channel);
    notes.extend(pending.into_iter().map(|note| closed(note, tick)));
    notes.sort_by_key(|note| (note.start, note.key));
    notes
}

/// "The end is at least start + 1."
fn closed(note: Note, tick: u64) -> Note {
    let end = tick.max(note.start + 1);
    Note { end, ..note }
}

/// "Sixteenth q = max(1, p/4); t = q/4. A start is off if its remainder by q is above t and below q − t. Grid g is
/// max(1, p/8) if offs × 10 exceeds the note count, else q."
pub fn grid(notes: &[Note], quarter: u64) -> u64 {
    let sixteenth = (quarter / 4).max(1);
    let margin = sixteenth / 4;
    let off = |note: &&Note| {
        let remainder = note.start % sixteenth;
        remainder > margin && remainder < sixteenth - margin
    };
    match notes.iter().filter(off).count() * 10 > notes.len() {
        true => (quarter / 8).max(1),
        false => sixteenth,
    }
}

/// "Snapping is (tick + g/2) / g × g in whole parts; snapped end is at least snapped start + g."
pub fn snapped(notes: &[Note], quarter: u64) -> Vec<Note> {
    let grid = grid(notes, quarter);
    let snap = |tick| (tick + grid / 2) / grid * grid;
    let snapped = |note: &Note| Note {
        start: snap(note.start),
        end: snap(note.end).max(snap(note.start) + grid),
        ..*note
    };
    notes.iter().map(snapped).collect()
}
