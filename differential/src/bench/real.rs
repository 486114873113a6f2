//! The real pieces in the table of imports.

use super::row::{Rounds, Row};
use crate::files::{reader, real};
use crate::refusals;

const ROUNDS: Rounds = Rounds {
    least: 7,
    going_on: 100.0,
};

/// Pieces of fewer events have no rows of their own.
const LARGE: usize = 1_000;

/// So many of the worst have one, by each ratio.
const WORST: usize = 3;

/// Prints all real pieces as one row, and the worst of the larger ones. What is to be said below the table.
pub fn rows() -> String {
    let files = match real::files() {
        Ok(files) => files,
        Err(what) => return format!("The real pieces are left out: {what}."),
    };
    let count = files.len();
    let rows: Vec<_> = files.into_iter().filter_map(row).collect();
    let taken = rows.len();
    Row::together(format!("{taken} real pieces together"), &rows).print();
    let large: Vec<_> = rows.into_iter().filter(|row| row.events >= LARGE).collect();
    for row in worst(&large) {
        row.print();
    }
    let above = |which: usize, bound| {
        let ratios = large.iter().map(|row| row.ratios()[which]);
        ratios.filter(|&ratio| ratio > bound).count()
    };
    format!(
        "Of {count} real files {taken} are imported, the others refused. Each is the shortest of {} runs or more.\n\
         Of the {} with {LARGE} events or more {} are above 1.0 without sizes, {} above 1.5 with.",
        ROUNDS.least,
        large.len(),
        above(0, 1.0),
        above(1, 1.5),
    )
}

/// `None` where the file or its piece is refused.
fn row((name, bytes): real::Named) -> Option<Row> {
    let piece = reader::read(&bytes).ok()?;
    match refusals::import(&piece) {
        None => Some(Row::of(name, &piece, &ROUNDS)),
        Some(_) => None,
    }
}

/// Those of the largest ratio without sizes, then with, each once.
fn worst(rows: &[Row]) -> Vec<&Row> {
    let mut worst: Vec<&Row> = Vec::new();
    for which in 0..2 {
        let mut sorted: Vec<_> = rows.iter().collect();
        sorted.sort_by(|a, b| b.ratios()[which].total_cmp(&a.ratios()[which]));
        sorted.truncate(WORST);
        sorted.retain(|row| worst.iter().all(|other| other.name != row.name));
        worst.extend(sorted);
    }
    worst
}
