//! Diagnostics, which pieces without notes have too.

use super::{Case, Wanted, number, rooms};
use crate::answers::Diagnostic;
use crate::checked::{Checked, same};
use crate::library::{self, Count, Lent};
use crate::packed;

pub fn answered(case: &Case, list: &[Diagnostic]) -> Checked {
    let wanted = packed::diagnostics(list);
    let needed = [list.len(), list.len(), case.work];
    rooms(case, needed, &wanted, |rooms, wanted| {
        call(case, rooms, wanted)
    })
}

pub fn refused(case: &Case, number: u32) -> Checked {
    for work in [0, 9, case.work + 1] {
        call(case, [3, 2, work], Err(number))?;
    }
    call(case, [0, 0, 0], Err(number))
}

fn call(case: &Case, rooms: [usize; 3], wanted: Wanted<packed::Diagnostics>) -> Checked {
    let [mut places, mut details, mut work] = rooms.map(Lent::new);
    let answer = library::diagnostics(&case.given, &mut places, &mut details, &mut work);
    let lists = wanted.cloned().unwrap_or_default();
    let count = Count {
        number: number(wanted),
        count: lists.places.len() as u32,
    };
    same("diagnostics", answer, count)?;
    places.holds("places", &lists.places)?;
    details.holds("details", &lists.details)?;
    work.cleared("work after diagnostics")
}
