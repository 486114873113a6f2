//! Facts of snapping, chords and voices, from the reference's own functions.

use super::facts::Seen;
use crate::answers::Import;
use crate::piece::Piece;
use crate::reference::{self, Chord, Voices};

pub fn see(seen: &mut Seen, piece: &Piece, import: &Import) {
    let parts = reference::voices(piece).expect("an imported piece");
    let last = import.bars.last().expect("a bar");
    let (full, end) = (import.bars.len() == 10_000, last.start + last.length);
    let cut_off = parts.iter().any(|part| part.end > end);
    seen.note("end cut off at 10,000 bars", cut_off);
    for part in &parts {
        let past = part.notes.iter().any(|note| note.start >= end);
        seen.note("note past the last bar", past && !full);
        seen.note("note past 10,000 bars", past && full);
        snapping(seen, part, piece.ticks_per_quarter());
        let spans = Span::of(part);
        at_once(seen, &spans);
        chords(seen, part, &spans);
        for at_start in spans.chunk_by(|a, b| a.start == b.start) {
            together(seen, part, at_start);
        }
    }
}

fn snapping(seen: &mut Seen, part: &Voices, quarter: u64) {
    let (grid, notes) = (part.grid, &part.notes);
    let sixteenth = (quarter / 4).max(1);
    seen.note("fine grid", grid < sixteenth);
    let off = |start: u64| {
        let (offset, tolerance) = (start % sixteenth, sixteenth / 4);
        offset > tolerance && offset < sixteenth - tolerance
    };
    let offs = notes.iter().filter(|note| off(note.raw_start)).count();
    seen.note("off starts exactly a tenth", offs * 10 == notes.len());
    let halfway = |start: u64| grid > 1 && start % grid * 2 == grid;
    let any_halfway = notes.iter().any(|note| halfway(note.raw_start));
    seen.note("start halfway between grid lines", any_halfway);
    let raised = notes.iter().any(|note| note.raised);
    seen.note("end raised to a grid step", raised);
    let twins = notes.windows(2).any(|two| {
        let alike = |note: &reference::Snapped| (note.raw_start, note.key);
        alike(&two[0]) == alike(&two[1]) && two[0].channel != two[1].channel
    });
    seen.note("two channels with one key and start", twins);
}

/// A chord as the notes alone make it: those of one snapped start and end.
struct Span {
    start: u64,
    end: u64,
    keys: Vec<u8>,
    drums: bool,
    mixed: bool,
}

impl Span {
    fn of(part: &Voices) -> Vec<Self> {
        let mut notes: Vec<_> = part.notes.iter().collect();
        notes.sort_by_key(|note| (note.start, note.end));
        let alike = notes.chunk_by(|a, b| (a.start, a.end) == (b.start, b.end));
        let span = |notes: &[&reference::Snapped]| {
            let drum = |note: &&reference::Snapped| note.channel == 9;
            let drums = notes.iter().all(drum);
            Span {
                start: notes[0].start,
                end: notes[0].end,
                keys: notes.iter().map(|note| note.key).collect(),
                drums,
                mixed: !drums && notes.iter().any(drum),
            }
        };
        alike.map(span).collect()
    }
}

/// How many spans sound together.
fn at_once(seen: &mut Seen, spans: &[Span]) {
    let mut turns: Vec<_> = spans
        .iter()
        .flat_map(|s| [(s.start, 1), (s.end, -1)])
        .collect();
    turns.sort_unstable();
    let mut sounding = 0;
    for (_, turn) in turns {
        sounding += turn;
        seen.note("five chords at once", sounding >= 5);
        seen.note("nine chords at once", sounding >= 9);
    }
    seen.note(
        "channel 9 in a pitched chord",
        spans.iter().any(|span| span.mixed),
    );
}

fn chords(seen: &mut Seen, part: &Voices, spans: &[Span]) {
    seen.note("four voices", !part.chords[3].is_empty());
    let spans: Vec<_> = spans.iter().map(|span| (span.start, span.end)).collect();
    let whole = |chord: &Chord| spans.binary_search(&(chord.start, chord.end)).is_ok();
    for (number, voice) in part.chords.iter().enumerate() {
        for two in voice.windows(2) {
            let cut = two[0].end == two[1].start && !whole(&two[0]);
            seen.note("chord cut to a new start", cut);
            if !cut {
                continue;
            }
            // The others go on at least as long; one that ends with the shortest loses only by its number.
            let at = two[1].start;
            let ends = |voice: usize| {
                let mut sounding = part.chords[voice]
                    .iter()
                    .filter(|c| c.start < at && c.end > at);
                sounding.next().map(|chord| chord.end)
            };
            let own = spans
                .iter()
                .filter(|span| span.0 == two[0].start)
                .map(|span| span.1);
            let own: Vec<_> = own.collect();
            let alike = (number + 1..4).flat_map(ends).any(|end| own == [end]);
            seen.note("ends alike where a voice is cut", alike);
        }
    }
}

/// What happened to the spans of one start. Each became a chord of its own, or gave its keys to the first voice that
/// has a chord of that start.
fn together(seen: &mut Seen, part: &Voices, spans: &[Span]) {
    seen.note("five chords of one start", spans.len() >= 5);
    let start = spans[0].start;
    let opened = part.chords.iter().flat_map(|voice| {
        let found = voice.binary_search_by_key(&start, |chord| chord.start);
        found.ok().map(|index| &voice[index])
    });
    let opened: Vec<_> = opened.collect();
    let given = opened.len() < spans.len();
    seen.note("keys given to a busy voice", given);
    let Some(taker) = opened.first().filter(|_| given) else {
        return;
    };
    let other_spans = spans
        .iter()
        .filter(|span| span.drums != taker.unpitched)
        .count();
    let other_chords = opened
        .iter()
        .filter(|chord| chord.unpitched != taker.unpitched)
        .count();
    let across = other_spans > other_chords;
    seen.note(
        "drum keys given to a pitched chord",
        across && !taker.unpitched,
    );
    seen.note(
        "pitched keys given to an unpitched chord",
        across && taker.unpitched,
    );
    let keys = |chords: &[&Chord]| chords.iter().map(|chord| chord.keys.len()).sum::<usize>();
    let mut distinct = 0;
    for span in spans {
        let mut keys = span.keys.clone();
        keys.sort_unstable();
        keys.dedup();
        distinct += keys.len();
    }
    seen.note("keys given that it had", keys(&opened) < distinct);
}
