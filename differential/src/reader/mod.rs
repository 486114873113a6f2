//! A plain proof-reader: document 01, section 8, read from the paper and not from the definitions or the library.
//!
//! Every point is a question over plain lists. It is meant for pieces of up to some thousand notes.

mod bars;
mod items;
mod notes;
mod playback;
mod points;
pub mod reasons;
#[cfg(test)]
mod tests;
pub mod values;

use crate::packed::{self, Staff};
use crate::piece::Piece;
pub use bars::Bar;
pub use notes::{Note, grid};

/// What a staff is read against.
#[derive(Debug, Clone, PartialEq, Eq)]
pub struct Part {
    /// Ticks per quarter.
    pub quarter: u64,
    /// The raw notes.
    pub notes: Vec<Note>,
    pub bars: Vec<Bar>,
}

/// The first thing that is wrong with a staff: it is malformed, or one of section 8's points fails.
#[derive(Debug, Clone, Copy, PartialEq, Eq)]
pub enum Point {
    Malformed,
    Values,
    /// Voices fill their bars.
    Full,
    /// Rests have no keys or marks, other items a key.
    Rests,
    Ties,
    /// Each raw note is found.
    Found,
    /// A key is that of no note.
    Invented,
    Ends,
}

impl Point {
    /// In the paper's order.
    pub const ALL: [Self; 8] = [
        Self::Malformed,
        Self::Values,
        Self::Full,
        Self::Rests,
        Self::Ties,
        Self::Found,
        Self::Invented,
        Self::Ends,
    ];
}

#[derive(Debug, Clone, Copy, PartialEq, Eq)]
pub enum Answer {
    /// Number 9.
    Uneven,
    No(Point),
    Yes,
}

impl Answer {
    /// The number of a call with this answer, and its yes (1) or no (0).
    pub fn numbers(self) -> [u32; 2] {
        match self {
            Self::Uneven => [9, 0],
            Self::No(_) => [0, 0],
            Self::Yes => [0, 1],
        }
    }
}

/// The parts of a piece that 1 to 6 let pass, whose bars are given.
pub fn parts(piece: &Piece, bars: &packed::Bars) -> Vec<Part> {
    let quarter = piece.ticks_per_quarter();
    let bars = bars::with_lengths(bars, quarter);
    let part = |notes| Part {
        quarter,
        notes,
        bars: bars.clone(),
    };
    notes::of_parts(piece).into_iter().map(part).collect()
}

/// Reads a staff against a part.
pub fn read(part: &Part, staff: &Staff) -> Answer {
    if uneven(part) {
        return Answer::Uneven;
    }
    match failing(part, staff, None) {
        Some(point) => Answer::No(point),
        None => Answer::Yes,
    }
}

/// Number 9: the part's grid and every bar's length are multiples of the smallest written value, or it is uneven.
pub fn uneven(part: &Part) -> bool {
    let smallest = values::smallest(part.quarter);
    let grid = grid(&part.notes, part.quarter);
    grid % smallest != 0 || part.bars.iter().any(|bar| bar.length % smallest != 0)
}

/// Whether only this point fails: a reader who leaves it out says yes.
pub fn alone(part: &Part, staff: &Staff, point: Point) -> bool {
    failing(part, staff, None) == Some(point) && failing(part, staff, Some(point)).is_none()
}

/// The first point that fails, each asked where those before it hold, but for the one that is left out.
fn failing(part: &Part, staff: &Staff, left_out: Option<Point>) -> Option<Point> {
    let fails = |point, holds: bool| !holds && left_out != Some(point);
    let Part { quarter, bars, .. } = part;
    if fails(Point::Malformed, !points::malformed(bars, staff)) {
        return Some(Point::Malformed);
    }
    let lists = items::lists(staff);
    if fails(Point::Values, points::values(*quarter, &lists)) {
        return Some(Point::Values);
    }
    if fails(Point::Full, points::full(*quarter, bars, &lists)) {
        return Some(Point::Full);
    }
    if fails(Point::Rests, points::rests(&lists)) {
        return Some(Point::Rests);
    }
    let end = bars::end(bars);
    let voices = items::voices(*quarter, bars, &lists);
    let ties = voices.iter().all(|voice| points::ties(voice, end));
    if fails(Point::Ties, ties) {
        return Some(Point::Ties);
    }
    let notes = notes::snapped(&part.notes, *quarter);
    let voices = voices.map(|voice| playback::chords(&voice));
    if fails(Point::Found, points::found(&notes, end, &voices)) {
        return Some(Point::Found);
    }
    if fails(Point::Invented, points::not_invented(&notes, end, &voices)) {
        return Some(Point::Invented);
    }
    let ends = voices.iter().all(|voice| points::ends(&notes, end, voice));
    fails(Point::Ends, ends).then_some(Point::Ends)
}
