//! Heads, the part count and the parts' heads.

use super::{Case, Wanted, number};
use crate::answers::{Import, Part};
use crate::checked::{Checked, same};
use crate::library::{self, Count, Head, PartHead};

pub fn answered(case: &Case, import: &Import) -> Checked {
    let head = &import.head;
    let wanted = Head {
        number: 0,
        tempo: head.tempo.into(),
        upper: head.upper.into(),
        lower: head.lower.into(),
        has_key: head.key.is_some().into(),
        fifths: head.key.map_or(0, |key| key.fifths.into()),
        minor: head.key.is_some_and(|key| key.minor).into(),
    };
    let count = import.parts.len() as u32;
    whole(case, wanted, Count { number: 0, count })
}

pub fn refused(case: &Case, number: u32) -> Checked {
    let head = Head {
        number,
        ..Head::default()
    };
    whole(case, head, Count { number, count: 0 })
}

fn whole(case: &Case, head: Head, count: Count) -> Checked {
    same("head", library::head(&case.given), head)?;
    same("part count", library::part_count(&case.given), count)
}

pub fn part(case: &Case, part: u32, wanted: Wanted<Part>) -> Checked {
    let head = PartHead {
        number: number(wanted),
        channel: wanted.map_or(0, |part| part.channel.into()),
        program: wanted.map_or(0, |part| part.program.into()),
    };
    same("part head", library::part_head(&case.given, part), head)
}
