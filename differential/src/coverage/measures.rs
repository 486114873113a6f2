//! Facts of the piece's events, its bars and its staffs.

use super::facts::Seen;
use crate::answers::{Bar, Import, Item, Leftover, Measure, Part};
use crate::piece::{Piece, sounds};

pub fn see(seen: &mut Seen, piece: &Piece, import: &Import) {
    events(seen, piece, import);
    bars(seen, import);
    items(seen, import);
    for part in &import.parts {
        staff(seen, part);
    }
}

fn events(seen: &mut Seen, piece: &Piece, import: &Import) {
    let tracks = piece.tracks();
    let with_notes = |track: &&Vec<(u32, u32)>| track.iter().any(|event| sounds(event.1));
    let played: Vec<_> = tracks.iter().filter(with_notes).collect();
    let in_played = |test: fn(u32) -> bool| played.iter().any(|t| t.iter().any(|e| test(e.1)));
    seen.note("timecode", piece.sizes[0] & 0x8000 != 0);
    seen.note("division below 16", piece.ticks_per_quarter() < 16);
    seen.note("several parts", import.parts.len() > 1);
    seen.note("32 parts and more tracks with notes", played.len() > 32);
    let notes = |track: &&Vec<(u32, u32)>| track.iter().filter(|event| sounds(event.1)).count();
    let most = played.iter().map(notes).max();
    let first_with_most = played
        .iter()
        .map(notes)
        .position(|count| Some(count) == most);
    seen.note("most notes not in part 0", first_with_most > Some(0));
    let no_part = first_with_most >= Some(import.parts.len());
    seen.note("most notes in a track that is no part", no_part);
    seen.note("track without notes", played.len() < tracks.len());
    let behind_an_end = tracks.iter().any(|track| {
        let end = track.iter().position(|event| event.1 >> 24 == 6);
        end.is_some_and(|end| end + 1 < track.len())
    });
    seen.note("events behind an end of track", behind_an_end);
    seen.note("marker", in_played(|word| word >> 24 == 5));
    let nine = |word: u32| sounds(word) && word >> 16 & 0xff == 9;
    seen.note("channel 9", in_played(nine));

    let automation = |event: &&(u32, u32)| (10..=14).contains(&(event.1 >> 24));
    let parts = played.iter().take(import.parts.len());
    let sent: usize = parts.map(|t| t.iter().filter(automation).count()).sum();
    let lists = import.parts.iter().flat_map(|part| part.automation.lists());
    let kept: usize = lists.map(<[_]>::len).sum();
    seen.note("automation", kept > 0);
    seen.note("automation dropped by a marker", kept < sent);
}

fn bars(seen: &mut Seen, import: &Import) {
    let (head, bars) = (&import.head, &import.bars);
    let any = |test: fn(&Bar) -> bool| bars.iter().any(test);
    seen.note("10,000 bars", bars.len() == 10_000);
    seen.note(
        "bar of 255/1",
        any(|bar| (bar.upper, bar.lower) == (255, 1)),
    );
    seen.note(
        "bar of one tick",
        any(|bar| bar.length == 1 && bar.upper > 0),
    );
    seen.note(
        "bar of length 0 raised to one tick",
        any(|bar| bar.upper == 0),
    );
    seen.note(
        "meter change printed",
        bars[1..].iter().any(|bar| bar.printed),
    );
    seen.note("tempo mark", any(|bar| bar.tempo.is_some()));
    seen.note("key mark", any(|bar| bar.key.is_some()));
    seen.note("head key", head.key.is_some());
    seen.note("head tempo not 120", head.tempo != 120);
    let first = (bars[0].upper, bars[0].lower);
    seen.note(
        "head meter not that of bar 1",
        (head.upper, head.lower) != first,
    );
}

fn items(seen: &mut Seen, import: &Import) {
    let any = |test: fn(&Item) -> bool| import.items().any(test);
    let across = |item: &Item| item.keys.contains(&63) && item.keys.contains(&64);
    seen.note("chord of several keys", any(|item| item.keys.len() > 1));
    seen.note("chord of ten keys", any(|item| item.keys.len() >= 10));
    seen.note("chord across keys 63 and 64", any(across));
    seen.note("unpitched", any(|item| item.unpitched));
}

fn staff(seen: &mut Seen, part: &Part) {
    let voices = || part.staff.iter().flatten();
    let tied = |two: &[Item]| two[0].tie_out && two[1].tie_in;
    let tie_inside = voices().any(|voice| voice.windows(2).any(tied));
    seen.note("tie inside a bar", tie_inside);
    let tied_in = |voice: &Vec<Item>| voice.first().is_some_and(|item| item.tie_in);
    seen.note("tie over a bar line", voices().any(tied_in));
    let between = |m: &Measure| (1..3).any(|v| m[v].is_empty() && !m[v + 1].is_empty());
    let empty_between = part.staff.iter().any(between);
    seen.note("empty voice between two that have items", empty_between);
    let without = part.staff.iter().any(|m| m.iter().all(Vec::is_empty));
    seen.note("bar without items", without);
    for (voice, leftover) in voices().zip(part.leftovers.iter().flatten()) {
        left_over(seen, voice, leftover);
    }
    let rests = |measure: &Measure| measure.iter().flatten().all(|item| item.rest);
    seen.note(
        "50 bars of rest in a row, then notes",
        run_before_more(&part.staff, rests),
    );
    let held = |voice: usize| {
        move |measure: &Measure| {
            let [first, .., last] = &measure[voice][..] else {
                return matches!(&measure[voice][..], [only] if only.tie_in && only.tie_out);
            };
            first.tie_in && last.tie_out
        }
    };
    let long = (0..4).any(|voice| run_before_more(&part.staff, held(voice)));
    seen.note("chord over 50 bars", long);
}

/// 50 bars in a row of which the test is true, then one of which it is not.
fn run_before_more(staff: &[Measure], test: impl Fn(&Measure) -> bool) -> bool {
    let mut run = 0;
    staff.iter().any(|measure| {
        if test(measure) {
            run += 1;
            return false;
        }
        std::mem::take(&mut run) >= 50
    })
}

fn left_over(seen: &mut Seen, voice: &[Item], leftover: &Leftover) {
    let short = leftover.ticks > 0;
    seen.note("ticks left over", short);
    let all_tied = voice.iter().all(|item| item.tie_in && item.tie_out);
    seen.note(
        "ticks left over inside a tie",
        short && all_tied && !voice.is_empty(),
    );
    seen.note(
        "ticks left over of a voice without items",
        short && leftover.sounds && voice.is_empty(),
    );
}
