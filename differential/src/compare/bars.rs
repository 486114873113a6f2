//! Bars and their marks.

use super::{Case, Wanted, number, rooms};
use crate::answers::Bar;
use crate::checked::{Checked, same};
use crate::library::{self, Count, Lent};
use crate::packed;

pub fn answered(case: &Case, bars: &[Bar]) -> Checked {
    let wanted = packed::bars(bars);
    rooms(case, [bars.len(); 2], &wanted, |rooms, wanted| {
        call(case, rooms, wanted)
    })
}

pub fn refused(case: &Case, number: u32) -> Checked {
    call(case, [3, 2], Err(number))
}

fn call(case: &Case, rooms: [usize; 2], wanted: Wanted<packed::Bars>) -> Checked {
    let [mut starts, mut marks] = rooms.map(Lent::new);
    let answer = library::bars(&case.given, &mut starts, &mut marks);
    let lists = wanted.cloned().unwrap_or_default();
    let count = Count {
        number: number(wanted),
        count: lists.starts.len() as u32,
    };
    same("bars", answer, count)?;
    starts.holds("starts", &lists.starts)?;
    marks.holds("marks", &lists.marks)
}
