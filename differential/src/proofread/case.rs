//! One piece: what both proof-readers say of its staffs.

use super::{Asked, Tally};
use crate::checked::{Checked, same};
use crate::generate::Random;
use crate::mutate::{self, Sources};
use crate::packed::{self, Staff};
use crate::piece::Piece;
use crate::reader::{self, Answer, Part};
use crate::{reference, refusals};

/// Compares on a piece and gives the staffs that were engraved.
pub fn piece<A: Asked>(
    piece: &Piece,
    mut random: Random,
    another: &Staff,
    tally: &mut Tally,
) -> Result<Vec<Staff>, String> {
    let asked = A::about(piece);
    let bars = match reference::import(piece) {
        Ok(import) => packed::bars(&import.bars),
        Err(number) => {
            tally.turned_back(number);
            turned_back(&asked, number.into(), &[0, u32::MAX], another)?;
            return Ok(vec![]);
        }
    };
    let parts = reader::parts(piece, &bars);
    let count = parts.len() as u32;
    turned_back(&asked, 7, &[count, u32::MAX], another)?;
    let staffs: Result<Vec<_>, _> = (0..count).map(|part| asked.engraved(part)).collect();
    let case = Case {
        asked,
        work: refusals::work(piece),
        parts,
        staffs: staffs?,
        another,
    };
    tally.pieces += 1;
    for part in 0..case.parts.len() {
        case.engraved(part, tally)?;
        case.changed(part, &mut random, tally)?;
    }
    Ok(case.staffs)
}

/// The number comes before 8 and 9, whatever the staff and the space.
fn turned_back(asked: &impl Asked, number: u32, parts: &[u32], another: &Staff) -> Checked {
    for &part in parts {
        for (staff, work) in [(another, 0), (another, 100_000), (&Staff::default(), 4_096)] {
            gets(asked, part, "turned back", staff, work, [number, 0])?;
        }
    }
    Ok(())
}

/// A staff gets this number, and this yes or no.
fn gets(
    asked: &impl Asked,
    part: u32,
    what: &str,
    staff: &Staff,
    work: usize,
    wanted: [u32; 2],
) -> Checked {
    let reading = asked.reading(part, staff, work);
    let agree = reading.and_then(|reading| same("number, right", reading, wanted));
    agree.map_err(|why| format!("part {part}, {what}, work {work}: {why}\n{}", staff.print()))
}

struct Case<'a, A> {
    asked: A,
    /// The words that a work area needs.
    work: usize,
    parts: Vec<Part>,
    staffs: Vec<Staff>,
    another: &'a Staff,
}

impl<A: Asked> Case<'_, A> {
    /// The engraved staff of an even part is right; with a word too few the number is 8, before 9.
    fn engraved(&self, part: usize, tally: &mut Tally) -> Checked {
        let staff = &self.staffs[part];
        let answer = self.both(part, "as engraved", staff, self.work)?;
        let even = !reader::uneven(&self.parts[part]);
        let wanted = if even { Answer::Yes } else { Answer::Uneven };
        same("plain reader", answer, wanted)
            .map_err(|what| format!("part {part}, as engraved: {what}\n{}", staff.print()))?;
        tally.engraved(even);
        let (part, short) = (part as u32, self.work - 1);
        gets(&self.asked, part, "a word too few", staff, short, [8, 0])
    }

    /// Some changed staffs, one where the answer is 9 anyway.
    fn changed(&self, part: usize, random: &mut Random, tally: &mut Tally) -> Checked {
        let sources = Sources {
            staffs: &self.staffs,
            part,
            another: self.another,
        };
        let count = match self.staffs[part].heads.len() {
            _ if reader::uneven(&self.parts[part]) => 1,
            0..400 => 8,
            400..2_000 => 3,
            _ => 1,
        };
        for _ in 0..count {
            let (kind, staff) = mutate::some(random, &sources);
            let work = self.work + random.below(3) as usize;
            let answer = self.both(part, mutate::KINDS[kind].name, &staff, work)?;
            tally.changed(kind, answer);
        }
        Ok(())
    }

    /// What both say of a staff.
    fn both(&self, part: usize, what: &str, staff: &Staff, work: usize) -> Result<Answer, String> {
        let answer = reader::read(&self.parts[part], staff);
        let what = format!("{what}, to the plain reader {answer:?}");
        let wanted = answer.numbers();
        gets(&self.asked, part as u32, &what, staff, work, wanted)?;
        Ok(answer)
    }
}
