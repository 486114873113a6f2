//! Times of proof-reading beside engraving.

use super::import::Import;
use super::{EVENTS, KINDS, PARTS, shortest};
use crate::clock::timed;
use crate::piece::Piece;

const ABOUT: &str = "\
the proof-reader on part 0's staff as it is engraved, which it says yes to, beside engraving it. ns/item is by the staff's
items, ns/event by the piece's events; ratio is proof-reading over engraving.";

const COLUMNS: [&str; 7] = [
    "engrave",
    "proof-read",
    "engrave ns/item",
    "read ns/item",
    "engrave ns/event",
    "read ns/event",
    "ratio",
];

pub fn table() {
    println!("{ABOUT}");
    print!(
        "{:18} {:>5} {:>8} {:>8}",
        "piece", "parts", "events", "items"
    );
    for column in COLUMNS {
        print!(" {column:>16}");
    }
    println!();
    for kind in KINDS {
        for parts in PARTS {
            for events in EVENTS {
                let (items, [engrave, read]) = times(&kind.piece(events, parts));
                print!("{:18} {parts:>5} {events:>8} {items:>8}", kind.name());
                let each = |time: f64, count: usize| time * 1e6 / count as f64;
                let [by_item, by_event] =
                    [items, events].map(|count| [each(engrave, count), each(read, count)]);
                let cells = [[engrave, read], by_item, by_event];
                for cell in cells.into_iter().flatten() {
                    print!(" {cell:>16.2}");
                }
                println!(" {:>16.3}", read / engrave);
            }
        }
    }
    println!();
}

/// The items of part 0, and the times of its engraving and its reading.
fn times(piece: &Piece) -> (usize, [f64; 2]) {
    let mut import = Import::of(piece);
    let engrave = shortest(5, || timed(|| import.engrave(0)).0);
    let (staff, items) = import.staff(0);
    let read = shortest(5, || timed(|| import.proof_read(0, &staff)).0);
    (items, [engrave, read])
}
