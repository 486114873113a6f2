//! The library against the reference on one piece.
//!
//! Each call is made with room to spare and with exactly enough, and must answer; with one element
//! too few in any one array, and must refuse with 8. A refusal changes no output. Work areas are
//! full of other numbers before a call and zero after it, refusals included.

mod automation;
mod bars;
mod diagnostics;
mod heads;
mod staffs;
pub mod values;

use crate::answers::{Answers, Import};
use crate::checked::Checked;
use crate::library::Given;
use crate::piece::Piece;
use crate::{reference, refusals};

/// What a call must answer, or the number with which it must refuse.
type Wanted<'a, T> = Result<&'a T, u32>;

struct Case {
    given: Given,
    /// What a work area needs; where 1 to 5 turn the piece back, what the least piece needs.
    work: usize,
    rooms: Rooms,
}

/// The rooms that each call is given.
#[derive(Debug, Clone, Copy, PartialEq, Eq)]
pub enum Rooms {
    /// Those described above.
    All,
    /// Exactly enough.
    Exact,
}

/// Everything that is compared.
pub fn piece(piece: &Piece) -> Checked {
    answers(piece, &reference::answers(piece), Rooms::All)
}

/// The same, the reference's answers given.
pub fn answers(piece: &Piece, answers: &Answers, rooms: Rooms) -> Checked {
    let empty = Piece::of_tracks(1, &[]);
    let case = Case {
        given: Given::of(piece),
        work: match refusals::admission(piece) {
            None => refusals::work(piece),
            Some(_) => refusals::work(&empty),
        },
        rooms,
    };
    match &answers.import {
        Ok(import) => imported(&case, import)?,
        Err(number) => refused(&case, u32::from(*number))?,
    }
    match &answers.diagnostics {
        Ok(list) => diagnostics::answered(&case, list)?,
        Err(number) => diagnostics::refused(&case, u32::from(*number))?,
    }
    case.given.holds(piece)
}

fn imported(case: &Case, import: &Import) -> Checked {
    heads::answered(case, import)?;
    bars::answered(case, &import.bars)?;
    for (number, part) in (0..).zip(&import.parts) {
        let here = |what| format!("part {number}, {what}");
        heads::part(case, number, Ok(part)).map_err(here)?;
        staffs::answered(case, number, part).map_err(here)?;
        automation::answered(case, number, &part.automation).map_err(here)?;
    }
    let count = import.parts.len() as u32;
    no_part(case, count, 7)?;
    no_part(case, u32::MAX, 7)
}

fn refused(case: &Case, number: u32) -> Checked {
    heads::refused(case, number)?;
    bars::refused(case, number)?;
    no_part(case, 0, number)?;
    no_part(case, u32::MAX, number)
}

/// The calls for one part, refused.
fn no_part(case: &Case, part: u32, number: u32) -> Checked {
    let here = |what| format!("part {part}, {what}");
    heads::part(case, part, Err(number)).map_err(here)?;
    staffs::refused(case, part, number).map_err(here)?;
    automation::refused(case, part, number).map_err(here)
}

/// The number of a call's answer: 0 beside what it answers.
fn number<T>(wanted: Wanted<T>) -> u32 {
    wanted.err().unwrap_or(0)
}

/// A call with each of the rooms described above. `needed` has the list lengths of its arrays.
fn rooms<T, const N: usize>(
    case: &Case,
    needed: [usize; N],
    wanted: &T,
    call: impl Fn([usize; N], Wanted<T>) -> Checked,
) -> Checked {
    let call = |rooms, wanted| {
        let with = |what| format!("{what}; arrays of {rooms:?} where {needed:?} are needed");
        call(rooms, wanted).map_err(with)
    };
    call(needed, Ok(wanted))?;
    if case.rooms == Rooms::Exact {
        return Ok(());
    }
    let mut spare = needed;
    for (index, room) in spare.iter_mut().enumerate() {
        *room += N - index;
    }
    call(spare, Ok(wanted))?;
    for index in 0..N {
        let mut rooms = needed;
        if rooms[index] > 0 {
            rooms[index] -= 1;
            call(rooms, Err(8))?;
        }
    }
    Ok(())
}
