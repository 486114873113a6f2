//! Whole imports beside the reference's.

use super::import::Import;
use super::pieces::Kind;
use super::row::{Rounds, Row, Times};
use super::{EVENTS, PARTS, real, shortest};
use crate::clock::timed;
use crate::compare;

const ABOUT: &str = "\
import: heads, bars, every part's staff and automation, diagnostics. Reference: `parse_midi` and `loss_diagnostics`, each
of which parses. Then the library where it is asked every staff's size first. The three are run by turns, five times or
more, for three quarters of a second; what takes the reference a second is run once.
Mixed: notes, among which one event in so many is a bend, a program, a meta or a tempo, by chance; no tempo is in the first
track, where the reference would look at every bar for each. The last three kinds have one bar, one and four.";

const ROUNDS: Rounds = Rounds {
    least: 5,
    going_on: 750.0,
};

const MANY: [usize; 3] = [1, 16, 32];
const MOST: [usize; 1] = [32];

/// Each kind in so many parts, of so many events.
const GRID: [(Kind, &[usize], &[usize]); 14] = [
    (Kind::Notes, &PARTS, &EVENTS),
    (Kind::Overlaps, &PARTS, &EVENTS),
    (Kind::Controllers, &PARTS, &EVENTS),
    (Kind::Tempos, &PARTS, &EVENTS),
    (Kind::Bends, &MANY, &EVENTS),
    (Kind::Programs, &MANY, &EVENTS),
    (Kind::Metas, &MANY, &EVENTS),
    (Kind::LaterTempos, &MANY, &EVENTS),
    (Kind::Mixed(256), &MANY, &[500_000]),
    (Kind::Mixed(16), &MANY, &[500_000]),
    (Kind::Mixed(2), &MANY, &[500_000]),
    (Kind::MetasBehind, &MOST, &[500_000]),
    (Kind::Tracks, &MOST, &[2 * 65_535]),
    (Kind::Short, &MOST, &[380 * 32]),
];

pub fn table() {
    println!("{ABOUT}");
    Row::print_titles();
    let mut rows = Vec::new();
    for (kind, parts, events) in grid() {
        let row = Row::of(kind.name(), &kind.piece(events, parts), &ROUNDS);
        row.print();
        rows.push((kind, row));
    }
    let said = real::rows();
    println!();
    growth(&rows);
    for (_, row) in rows.iter().filter(|(kind, _)| *kind == Kind::MetasBehind) {
        admission(row);
    }
    println!("{said}\n");
}

/// Kind, parts and events.
fn grid() -> impl Iterator<Item = (Kind, usize, usize)> {
    GRID.into_iter().flat_map(|(kind, parts, events)| {
        let each = move |&parts| events.iter().map(move |&events| (kind, parts, events));
        parts.iter().flat_map(each)
    })
}

/// One of the library's two times.
type Time = fn(&Times) -> f64;

/// What it is called, whether sizes are asked first, and which it is.
const SIDES: [(&str, bool, Time); 2] = [
    ("without sizes", false, |times| times.library),
    ("with sizes", true, |times| times.sized),
];

/// The largest growth: the row behind one of few events has the more.
fn growth(rows: &[(Kind, Row)]) {
    for (what, _, time) in SIDES {
        let grown = rows.windows(2).filter_map(|pair| {
            let [(kind, few), (same, many)] = pair else {
                return None;
            };
            let grows = kind == same && few.events < many.events;
            grows.then(|| (time(&many.times) / time(&few.times), few, many))
        });
        if let Some((factor, few, many)) = grown.max_by(|a, b| a.0.total_cmp(&b.0)) {
            let (name, parts) = (&many.name, many.parts);
            println!(
                "Largest growth from {} to {} events {what}: {factor:.2} times ({name}, parts: {parts}).",
                few.events, many.events
            );
        }
    }
}

/// What part of an import is admission. The first track is short, so that the call for the head does little else: as many
/// of it as the import has calls, by turns with the import.
fn admission(row: &Row) {
    let mut import = Import::of(&Kind::MetasBehind.piece(row.events, row.parts));
    println!("{}: admission is", row.name);
    for (what, sized, _) in SIDES {
        let calls = import.calls(sized);
        let mut heads = f64::INFINITY;
        let whole = shortest(5, || {
            let time = timed(|| (0..calls).for_each(|_| import.head())).0;
            heads = heads.min(time);
            timed(|| import.all(sized)).0
        });
        let part = heads / whole;
        println!(
            "  {part:.2} {what}: {calls} calls, as many of acorde_head take {heads:.1} of {whole:.1} ms."
        );
    }
}

/// The two compared on the pieces of the benchmark.
pub fn compared() -> Result<(), String> {
    for (kind, parts, events) in grid() {
        let name = format!("{}, {parts} parts, {events} events", kind.name());
        compare::piece(&kind.piece(events, parts)).map_err(|what| format!("{name}: {what}"))?;
        println!("agree: {name}");
    }
    Ok(())
}
