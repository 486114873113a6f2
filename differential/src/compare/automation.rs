//! Automation of one part.

use super::{Case, Wanted, number, rooms};
use crate::checked::{Checked, same};
use crate::library::{self, Lent};
use crate::{answers, packed};

pub fn answered(case: &Case, part: u32, automation: &answers::Automation) -> Checked {
    let wanted = packed::automation(automation);
    rooms(case, [wanted.ticks.len(); 2], &wanted, |rooms, wanted| {
        call(case, part, rooms, wanted)
    })
}

pub fn refused(case: &Case, part: u32, number: u32) -> Checked {
    call(case, part, [3, 2], Err(number))?;
    call(case, part, [0, 0], Err(number))
}

fn call(case: &Case, part: u32, rooms: [usize; 2], wanted: Wanted<packed::Automation>) -> Checked {
    let (mut ticks, mut words) = (Lent::new(rooms[0]), Lent::new(rooms[1]));
    let answer = library::automation(&case.given, part, &mut ticks, &mut words);
    let lists = wanted.cloned().unwrap_or_default();
    let counts = library::Automation {
        number: number(wanted),
        counts: lists.counts.map(|count| count as usize),
    };
    same("automation", answer, counts)?;
    ticks.holds("automation ticks", &lists.ticks)?;
    words.holds("automation words", &lists.words)
}
