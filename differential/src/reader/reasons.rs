//! Why a staff gets no, told apart further than by the point that fails: for choosing and counting staffs, not for answers.

use super::items::{self, Item, Placed, by_bar};
use super::notes::{self, Note};
use super::playback::{self, Chord};
use super::points::{ending_at, starting_at};
use super::{Part, Point, bars};
use crate::packed::Staff;

/// Each point in the paper's order, with its reasons.
pub const REASONS: [(Point, &str, &[&str]); 8] = [
    (Point::Malformed, "malformed", &MALFORMED),
    (Point::Values, "values", &VALUES),
    (Point::Full, "full bars", &FULL),
    (Point::Rests, "rests and keys", &RESTS),
    (Point::Ties, "ties", &TIES),
    (Point::Found, "notes found", &FOUND),
    (Point::Invented, "no key invented", &INVENTED),
    (Point::Ends, "chords' ends", &ENDS),
];

const MALFORMED: [&str; 10] = [
    "fewer counts than four a bar",
    "more counts than four a bar",
    "fewer heads than counted",
    "more heads than counted",
    "fewer keys than counted",
    "more keys than counted",
    "fewer items than counted",
    "as many items as counted modulo 2^32 alone",
    "more items than counted",
    "a head bit above 8",
];
const VALUES: [&str; 3] = [
    "a 128th (code 9)",
    "a code above 9",
    "no whole number of ticks",
];
const FULL: [&str; 3] = [
    "voice 0 without items",
    "a voice shorter than its bar",
    "a voice longer than its bar",
];
const RESTS: [&str; 5] = [
    "a rest with keys",
    "a rest with tie-in",
    "a rest with tie-out",
    "an unpitched rest",
    "a chord without keys",
];
const TIES: [&str; 6] = [
    "tie-in where no item ends",
    "tie-in behind an item without tie-out",
    "tie-out where no item starts",
    "tie-out before an item without tie-in",
    "tied with other keys",
    "tied with another unpitched mark",
];
const FOUND: [&str; 2] = [
    "no chord at a note's start",
    "chords at a note's start without its key",
];
const INVENTED: [&str; 2] = [
    "a chord where no note starts",
    "a key that no note of that start has",
];
const ENDS: [&str; 3] = [
    "before all its notes' ends",
    "behind all its notes' ends",
    "between its notes' ends",
];

/// The reasons of the first point that fails which a staff has.
pub fn of(part: &Part, staff: &Staff, point: Point) -> Vec<&'static str> {
    let holding = match point {
        Point::Malformed => malformed(part, staff).to_vec(),
        Point::Values => values(part, staff).to_vec(),
        Point::Full => full(part, staff).to_vec(),
        Point::Rests => rests(staff).to_vec(),
        Point::Ties => ties(part, staff).to_vec(),
        Point::Found => found(part, staff).to_vec(),
        Point::Invented => invented(part, staff).to_vec(),
        Point::Ends => ends(part, staff).to_vec(),
    };
    let (_, _, reasons) = REASONS[point as usize];
    let named = reasons.iter().zip(holding);
    named
        .filter_map(|(name, here)| here.then_some(*name))
        .collect()
}

/// Where heads and keys agree with each other it is the counts that are wrong.
fn malformed(part: &Part, staff: &Staff) -> [bool; 10] {
    let counted: u64 = staff.counts.iter().map(|count| u64::from(*count)).sum();
    let (counts, four) = (staff.counts.len(), 4 * part.bars.len());
    let (heads, keys) = (staff.heads.len() as u64, staff.keys.len() as u64);
    let agree = keys == 2 * heads;
    let wrapped = heads < counted && u64::from(counted as u32) == heads;
    [
        counts < four,
        counts > four,
        heads < counted && !agree,
        heads > counted && !agree,
        keys < 2 * counted && !agree,
        keys > 2 * counted && !agree,
        heads < counted && agree && !wrapped,
        agree && wrapped,
        heads > counted && agree,
        staff.heads.iter().any(|head| head >> 9 != 0),
    ]
}

fn values(part: &Part, staff: &Staff) -> [bool; 3] {
    let lists = items::lists(staff);
    let any = |test: fn(&Item, u64) -> bool| {
        let mut items = lists.iter().flatten();
        items.any(|item| test(item, part.quarter))
    };
    [
        any(|item, _| item.code == 9),
        any(|item, _| item.code > 9),
        any(|item, quarter| item.code < 9 && item.length(quarter).is_none()),
    ]
}

fn full(part: &Part, staff: &Staff) -> [bool; 3] {
    let lists = items::lists(staff);
    let ticks = |items: &[Item]| {
        items
            .iter()
            .map(|item| item.ticks(part.quarter))
            .sum::<u64>()
    };
    let any = |test: &dyn Fn(u64, usize, &[Item]) -> bool| {
        by_bar(&part.bars, &lists).any(|(bar, voice, items)| test(bar.length, voice, items))
    };
    [
        any(&|_, voice, items| voice == 0 && items.is_empty()),
        any(&|bar, _, items| !items.is_empty() && ticks(items) < bar),
        any(&|bar, _, items| ticks(items) > bar),
    ]
}

fn rests(staff: &Staff) -> [bool; 5] {
    let lists = items::lists(staff);
    let any = |test: fn(&Item) -> bool| lists.iter().flatten().any(test);
    [
        any(|item| item.rest && item.keys != 0),
        any(|item| item.rest && item.tie_in),
        any(|item| item.rest && item.tie_out),
        any(|item| item.rest && item.unpitched),
        any(|item| !item.rest && item.keys == 0),
    ]
}

fn ties(part: &Part, staff: &Staff) -> [bool; 6] {
    let end = bars::end(&part.bars);
    let lists = items::lists(staff);
    let voices = items::voices(part.quarter, &part.bars, &lists);
    let each = voices.iter().flat_map(|voice| {
        let here = move |placed| ties_of(voice, placed, end);
        voice.iter().map(here)
    });
    each.fold([false; 6], |all, one| {
        std::array::from_fn(|index| all[index] || one[index])
    })
}

/// What is wrong with the ties of one item, to the item that ends at its start and to the one that starts at its end.
fn ties_of(voice: &[Placed], here: &Placed, end: u64) -> [bool; 6] {
    let Placed { item, .. } = here;
    let before = ending_at(voice, here.start);
    let behind = starting_at(voice, here.end);
    let (ties_in, ties_out) = (item.tie_in, item.tie_out && here.end != end);
    let met = behind.filter(|behind| item.tie_out && behind.tie_in);
    [
        ties_in && before.is_none(),
        ties_in && before.is_some_and(|before| !before.tie_out),
        ties_out && behind.is_none(),
        ties_out && behind.is_some_and(|behind| !behind.tie_in),
        met.is_some_and(|behind| behind.keys != item.keys),
        met.is_some_and(|behind| behind.unpitched != item.unpitched),
    ]
}

/// The snapped notes that start before the last bar's end, and the chords that the staff plays.
fn played(part: &Part, staff: &Staff) -> (Vec<Note>, [Vec<Chord>; 4]) {
    let end = bars::end(&part.bars);
    let notes = notes::snapped(&part.notes, part.quarter).into_iter();
    let voices = items::voices(part.quarter, &part.bars, &items::lists(staff));
    (
        notes.filter(|note| note.start < end).collect(),
        voices.map(|voice| playback::chords(&voice)),
    )
}

fn found(part: &Part, staff: &Staff) -> [bool; 2] {
    let (notes, voices) = played(part, staff);
    let at = |note: &Note| {
        let chords = voices.iter().flatten();
        chords.filter(|chord| chord.start == note.start).collect()
    };
    let missing = |chords: &[&Chord], note: &Note| chords.iter().all(|chord| !chord.has(note.key));
    let any = |test: fn(&[&Chord]) -> bool| {
        let mut notes = notes.iter().map(|note| (at(note), note));
        notes.any(|(chords, note): (Vec<_>, _)| missing(&chords, note) && test(&chords))
    };
    [
        any(|chords| chords.is_empty()),
        any(|chords| !chords.is_empty()),
    ]
}

fn invented(part: &Part, staff: &Staff) -> [bool; 2] {
    let (notes, voices) = played(part, staff);
    let keys = |chord: &Chord| {
        let here = notes.iter().filter(|note| note.start == chord.start);
        here.fold(0, |keys, note| keys | 1u128 << note.key)
    };
    let any = |test: fn(u128) -> bool| {
        let mut chords = voices
            .iter()
            .flatten()
            .map(|chord| (keys(chord), chord.keys));
        chords.any(|(given, played)| played & !given != 0 && test(given))
    };
    [any(|given| given == 0), any(|given| given != 0)]
}

fn ends(part: &Part, staff: &Staff) -> [bool; 3] {
    let (notes, voices) = played(part, staff);
    let end = bars::end(&part.bars);
    let ends = |chord: &Chord| {
        let here = notes.iter().filter(|note| note.start == chord.start);
        here.map(|note| note.end).collect::<Vec<_>>()
    };
    let mut found = [false; 3];
    for voice in &voices {
        let nexts = voice.iter().skip(1).map(|next| next.start).chain([end]);
        for (chord, next) in voice.iter().zip(nexts) {
            let ends = ends(chord);
            if [next, end].contains(&chord.end) || ends.contains(&chord.end) {
                continue;
            }
            let before = ends.iter().all(|end| chord.end < *end);
            let behind = ends.iter().all(|end| chord.end > *end);
            let which = if before {
                0
            } else if behind {
                1
            } else {
                2
            };
            found[which] = true;
        }
    }
    found
}
