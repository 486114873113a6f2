//! Section 8's points, each under its sentence. A point may take for granted what those before it say.

use super::bars::Bar;
use super::items::{Item, Placed, by_bar};
use super::notes::Note;
use super::playback::Chord;
use crate::packed::Staff;

/// "A staff whose arrays don't fit its counts exactly (four per bar), or with a head bit set that has no meaning, is
/// malformed."
pub fn malformed(bars: &[Bar], staff: &Staff) -> bool {
    let items: u64 = staff.counts.iter().map(|count| u64::from(*count)).sum();
    staff.counts.len() != 4 * bars.len()
        || staff.heads.len() as u64 != items
        || staff.keys.len() as u64 != 2 * items
        || staff.heads.iter().any(|head| head >> 9 != 0)
}

/// "Values are section 6's for staffs."
pub fn values(quarter: u64, lists: &[Vec<Item>]) -> bool {
    let mut items = lists.iter().flatten();
    items.all(|item| item.length(quarter).is_some())
}

/// "Each voice that has items fills its bar, voice 0 always."
pub fn full(quarter: u64, bars: &[Bar], lists: &[Vec<Item>]) -> bool {
    by_bar(bars, lists).all(|(bar, voice, items)| {
        let ticks = items.iter().map(|item| item.ticks(quarter));
        items.is_empty() && voice != 0 || ticks.sum::<u64>() == bar.length
    })
}

/// "Rests have no keys or marks, other items at least one key." Marks are both ties and unpitched.
pub fn rests(lists: &[Vec<Item>]) -> bool {
    lists.iter().flatten().all(|item| match item.rest {
        true => item.keys == 0 && !item.tie_in && !item.tie_out && !item.unpitched,
        false => item.keys != 0,
    })
}

/// "Within a voice tie-in and tie-out meet at one tick with equal keys and unpitched mark, tie-out free only at the staff's
/// end."
pub fn ties(voice: &[Placed], staff_end: u64) -> bool {
    let alike = |a: &Item, b: &Item| a.keys == b.keys && a.unpitched == b.unpitched;
    voice.iter().all(|here| {
        let meets_out = ending_at(voice, here.start)
            .is_some_and(|before| before.tie_out && alike(before, &here.item));
        let meets_in = starting_at(voice, here.end)
            .is_some_and(|behind| behind.tie_in && alike(&here.item, behind));
        (!here.item.tie_in || meets_out)
            && (!here.item.tie_out || meets_in || here.end == staff_end)
    })
}

/// The voice's item that ends at a tick. Its items are in order, so that there is one at most, found by halving.
pub fn ending_at(voice: &[Placed], tick: u64) -> Option<&Item> {
    let index = voice.binary_search_by_key(&tick, |placed| placed.end);
    index.ok().map(|index| &voice[index].item)
}

pub fn starting_at(voice: &[Placed], tick: u64) -> Option<&Item> {
    let index = voice.binary_search_by_key(&tick, |placed| placed.start);
    index.ok().map(|index| &voice[index].item)
}

/// "Each raw note whose snapped start is before the last bar's end has its key in a played-back chord of that start."
pub fn found(notes: &[Note], last_end: u64, voices: &[Vec<Chord>; 4]) -> bool {
    let mut wanted = notes.iter().filter(|note| note.start < last_end);
    wanted.all(|note| {
        let mut chords = voices.iter().flatten();
        chords.any(|chord| chord.start == note.start && chord.has(note.key))
    })
}

/// "Each played-back key is that of such a note whose snapped start is its chord's start." Such a note starts before the
/// last bar's end.
pub fn not_invented(notes: &[Note], last_end: u64, voices: &[Vec<Chord>; 4]) -> bool {
    voices.iter().flatten().all(|chord| {
        let mut keys = (0..128).filter(|key| chord.has(*key));
        keys.all(|key| {
            let mut such = notes.iter().filter(|note| note.start < last_end);
            such.any(|note| note.start == chord.start && note.key == key)
        })
    })
}

/// "Each chord ends at a snapped end of a note of that start, at its voice's next chord, or at the last bar's end."
pub fn ends(notes: &[Note], last_end: u64, voice: &[Chord]) -> bool {
    let nexts = voice.iter().skip(1).map(|next| Some(next.start));
    voice.iter().zip(nexts.chain([None])).all(|(chord, next)| {
        let mut of_that_start = notes.iter().filter(|note| note.start == chord.start);
        of_that_start.any(|note| note.end == chord.end)
            || next == Some(chord.end)
            || chord.end == last_end
    })
}
