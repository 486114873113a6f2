//! Times of the library beside the reference's on the same pieces.

mod import;
mod imports;
mod pieces;
mod readings;
mod real;
mod row;

use crate::clock::timed;
use crate::piece::Piece;
use crate::reference::times;
use import::Import;
pub use imports::compared;
use pieces::Kind;
use std::time::{Duration, Instant};

const KINDS: [Kind; 4] = [Kind::Notes, Kind::Overlaps, Kind::Controllers, Kind::Tempos];
const EVENTS: [usize; 2] = [100_000, 500_000];
const PARTS: [usize; 2] = [1, 16];

/// The least of some runs, in milliseconds. Where more than one is asked for, short ones go on for a quarter of a second.
fn shortest(runs: usize, mut run: impl FnMut() -> f64) -> f64 {
    let begun = Instant::now();
    let mut times = Vec::new();
    while times.len() < runs || runs > 1 && times.len() < 100 && begun.elapsed() < GOING_ON {
        times.push(run());
    }
    times.into_iter().fold(f64::INFINITY, f64::min)
}

const GOING_ON: Duration = Duration::from_millis(250);

/// The reference looks at every bar for every tempo change of every part: one run of those is enough.
fn runs(kind: Kind) -> usize {
    match kind {
        Kind::Tempos => 1,
        _ => 5,
    }
}

const ABOUT: &str = "\
Pieces of 10,000 bars of 4/4 at 480 ticks per quarter, events over all of it, one held note in each part. Milliseconds of
the thread's own CPU time, the shortest of five runs or more, for a quarter of a second; the reference's bars of tempos are
run once. Freeing what it answers is not timed.
Library: whole calls from the piece's arrays, admission included; arrays lent once, before the time runs.
Reference: the file as the stand-in parses it is given, but for diagnostics and imports.
ns/event is the library's; ratio is the first time over the second, library over reference.";

/// The tables by name.
const TABLES: [(&str, fn()); 6] = [
    ("bars", bars),
    ("staffs", staffs),
    ("readings", readings::table),
    ("automation", automation),
    ("diagnostics", diagnostics),
    ("imports", imports::table),
];

/// All tables, or those that are named.
pub fn tables(names: &[&str]) {
    println!("{ABOUT}\n");
    for (name, table) in TABLES {
        if names.is_empty() || names.contains(&name) {
            table();
        }
    }
}

/// Prints a row for each piece: the first time is the library's, the second the reference's.
fn table<const N: usize>(
    title: &str,
    columns: [&str; N],
    parts: &[usize],
    times: impl Fn(Kind, &Piece) -> [f64; N],
) {
    println!("{title}");
    print!("{:18} {:>5} {:>8}", "piece", "parts", "events");
    for column in columns {
        print!(" {column:>18}");
    }
    println!(" {:>8} {:>8}", "ns/event", "ratio");
    for kind in KINDS {
        for &parts in parts {
            for events in EVENTS {
                let times = times(kind, &kind.piece(events, parts));
                print!("{:18} {parts:>5} {events:>8}", kind.name());
                for time in times {
                    print!(" {time:>18.2}");
                }
                let (each, ratio) = (times[0] * 1e6 / events as f64, times[0] / times[1]);
                println!(" {each:>8.1} {ratio:>8.3}");
            }
        }
    }
    println!();
}

fn bars() {
    table(
        "bars and marks. Reference: changes and raw notes collected, `midi_bars`, `apply_bar_changes`",
        ["library", "reference"],
        &PARTS[..1],
        |kind, piece| {
            let mut import = Import::of(piece);
            [
                shortest(5, || timed(|| import.bars()).0),
                shortest(runs(kind), || times::bars(piece)),
            ]
        },
    );
}

fn staffs() {
    table(
        "the staff of part 0. Reference: changes and raw notes of all parts collected, `midi_bars`, `transcribe_track`; \
         last, `transcribe_track` alone",
        [
            "library engrave",
            "reference",
            "library size",
            "transcribe alone",
        ],
        &PARTS,
        |_, piece| {
            let mut import = Import::of(piece);
            let mut alone = f64::INFINITY;
            let ours = shortest(5, || timed(|| import.engrave(0)).0);
            let size = shortest(5, || timed(|| import.staff_size(0)).0);
            let theirs = shortest(5, || {
                let (whole, transcribe) = times::staff(piece, 0);
                alone = alone.min(transcribe);
                whole
            });
            [ours, theirs, size, alone]
        },
    );
}

fn automation() {
    table(
        "the automation of part 0. Reference: its raw notes and auxiliary channels, then the four lists",
        ["library", "reference"],
        &PARTS,
        |_, piece| {
            let mut import = Import::of(piece);
            [
                shortest(5, || timed(|| import.automation(0)).0),
                shortest(5, || times::automation(piece)),
            ]
        },
    );
}

fn diagnostics() {
    table(
        "diagnostics. Reference: `loss_diagnostics`, which parses; last, parsing alone",
        ["library", "reference", "parsing"],
        &PARTS,
        |_, piece| {
            let mut import = Import::of(piece);
            [
                shortest(5, || timed(|| import.diagnostics()).0),
                shortest(5, || times::diagnostics(piece)),
                shortest(5, || times::parse(piece)),
            ]
        },
    );
}
