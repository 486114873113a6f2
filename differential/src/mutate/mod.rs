//! Staffs that are nearly right: an engraved one with something changed. Some changes keep it right.

mod arrays;
mod chords;
mod fields;
mod places;
mod sheet;

use crate::generate::Random;
use crate::packed::Staff;
use sheet::Sheet;

/// What is changed, and how often beside the others.
pub struct Kind {
    pub name: &'static str,
    weight: u64,
    change: Change,
}

/// A change gives nothing where the staff has no place for it.
enum Change {
    /// The counts are those of the changed items.
    Items(fn(&mut Random, &mut Sheet) -> Option<()>),
    /// The counts stay.
    ItemsAlone(fn(&mut Random, &mut Sheet) -> Option<()>),
    Arrays(fn(&mut Random, &mut Staff) -> Option<()>),
    /// Another part's staff.
    OtherPart,
    /// A staff of another piece.
    OtherPiece,
    /// Two or three changes, one after the other.
    Several,
}

use Change::{Arrays, Items, ItemsAlone, OtherPart, OtherPiece, Several};

#[rustfmt::skip]
pub const KINDS: [Kind; 49] = [
    Kind { name: "code", weight: 6, change: Items(fields::code) },
    Kind { name: "dot", weight: 2, change: Items(fields::dot) },
    Kind { name: "tie-in", weight: 3, change: Items(fields::tie_in) },
    Kind { name: "tie-out", weight: 3, change: Items(fields::tie_out) },
    Kind { name: "unpitched", weight: 3, change: Items(fields::unpitched) },
    Kind { name: "mark of a rest", weight: 3, change: Items(fields::rest_mark) },
    Kind { name: "rest", weight: 2, change: Items(fields::rest) },
    Kind { name: "bit without meaning", weight: 2, change: Items(fields::meaningless) },
    Kind { name: "key set", weight: 4, change: Items(fields::key_set) },
    Kind { name: "key cleared", weight: 4, change: Items(fields::key_cleared) },
    Kind { name: "key moved", weight: 4, change: Items(fields::key_moved) },
    Kind { name: "key words swapped", weight: 2, change: Items(fields::key_words) },
    Kind { name: "keys of another item", weight: 3, change: Items(fields::keys_taken) },
    Kind { name: "item moved", weight: 2, change: Items(places::moved) },
    Kind { name: "item moved, counts kept", weight: 2, change: ItemsAlone(places::moved) },
    Kind { name: "item dropped", weight: 2, change: Items(places::dropped) },
    Kind { name: "item dropped, counts kept", weight: 1, change: ItemsAlone(places::dropped) },
    Kind { name: "item doubled", weight: 2, change: Items(places::doubled) },
    Kind { name: "item doubled, counts kept", weight: 1, change: ItemsAlone(places::doubled) },
    Kind { name: "neighbours swapped", weight: 5, change: Items(places::swapped) },
    Kind { name: "voices permuted", weight: 4, change: Items(places::permuted) },
    Kind { name: "voices of a bar exchanged", weight: 4, change: Items(places::exchanged) },
    Kind { name: "voice moved", weight: 4, change: Items(places::voice_moved) },
    Kind { name: "voice doubled", weight: 4, change: Items(places::voice_doubled) },
    Kind { name: "voice emptied in a bar", weight: 3, change: Items(places::emptied) },
    Kind { name: "rests in an empty voice", weight: 3, change: Items(places::rested) },
    Kind { name: "split", weight: 5, change: Items(chords::split) },
    Kind { name: "split to 128ths", weight: 2, change: Items(chords::crumbled) },
    Kind { name: "merged", weight: 5, change: Items(chords::merged) },
    Kind { name: "rest made a chord", weight: 5, change: Items(chords::sounded) },
    Kind { name: "chord made a rest", weight: 3, change: Items(chords::silenced) },
    Kind { name: "chord shortened", weight: 8, change: Items(chords::shortened) },
    Kind { name: "chord prolonged", weight: 8, change: Items(chords::prolonged) },
    Kind { name: "tie undone", weight: 5, change: Items(chords::untied) },
    Kind { name: "tie-out at a voice's end", weight: 3, change: Items(chords::open_end) },
    Kind { name: "unpitched, whole chord", weight: 3, change: Items(chords::chord_unpitched) },
    Kind { name: "key set, whole chord", weight: 5, change: Items(chords::chord_key_set) },
    Kind { name: "key cleared, whole chord", weight: 5, change: Items(chords::chord_key_cleared) },
    Kind { name: "keys exchanged", weight: 5, change: Items(chords::keys_exchanged) },
    Kind { name: "count", weight: 1, change: Arrays(arrays::count) },
    Kind { name: "counts", weight: 3, change: Arrays(arrays::counts) },
    Kind { name: "array cut", weight: 1, change: Arrays(arrays::cut) },
    Kind { name: "arrays lengthened", weight: 1, change: Arrays(arrays::lengthened) },
    Kind { name: "random words", weight: 2, change: Arrays(arrays::words) },
    Kind { name: "noise", weight: 1, change: Arrays(arrays::noise) },
    Kind { name: "empty arrays", weight: 1, change: Arrays(arrays::empty) },
    Kind { name: "staff of another part", weight: 2, change: OtherPart },
    Kind { name: "staff of another piece", weight: 1, change: OtherPiece },
    Kind { name: "several", weight: 8, change: Several },
];

/// What a changed staff is made from.
pub struct Sources<'a> {
    /// The staffs of a piece's parts.
    pub staffs: &'a [Staff],
    /// The number of the one that is changed.
    pub part: usize,
    /// A staff of another piece.
    pub another: &'a Staff,
}

/// A changed staff, and the number of its kind.
pub fn some(random: &mut Random, sources: &Sources) -> (usize, Staff) {
    let staff = &sources.staffs[sources.part];
    loop {
        let kind = pick(random);
        if let Some(changed) = changed(random, sources, staff, &KINDS[kind].change) {
            return (kind, changed);
        }
    }
}

/// The number of a kind, by the weights.
fn pick(random: &mut Random) -> usize {
    let mut left = random.below(KINDS.iter().map(|kind| kind.weight).sum());
    let reached = KINDS.iter().position(|kind| {
        let here = left < kind.weight;
        left = left.saturating_sub(kind.weight);
        here
    });
    reached.expect("the weights' sum is more")
}

fn changed(
    random: &mut Random,
    sources: &Sources,
    staff: &Staff,
    change: &Change,
) -> Option<Staff> {
    let mut sheet = Sheet::of(staff);
    let mut arrays = staff.clone();
    match change {
        Items(change) => {
            change(random, &mut sheet)?;
            Some(sheet.packed())
        }
        ItemsAlone(change) => {
            change(random, &mut sheet)?;
            let counts = arrays.counts;
            Some(Staff {
                counts,
                ..sheet.packed()
            })
        }
        Arrays(change) => {
            change(random, &mut arrays)?;
            Some(arrays)
        }
        OtherPart => {
            let others = (0..sources.staffs.len()).filter(|part| *part != sources.part);
            let others: Vec<_> = others.collect();
            (!others.is_empty()).then(|| sources.staffs[random.pick(&others)].clone())
        }
        OtherPiece => Some(sources.another.clone()),
        Several => Some(several(random, sources, arrays)),
    }
}

fn several(random: &mut Random, sources: &Sources, mut staff: Staff) -> Staff {
    for _ in 0..random.between(2, 3) {
        match &KINDS[pick(random)].change {
            Several => {}
            change => staff = changed(random, sources, &staff, change).unwrap_or(staff),
        }
    }
    staff
}
