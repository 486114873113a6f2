//! Staff size, staff and leftovers of one part.

use super::{Case, Wanted, number, rooms};
use crate::answers::{Part, Spelled};
use crate::checked::{Checked, same};
use crate::library::{self, Lent, StaffSize};
use crate::{packed, spelling};

/// A staff, its leftovers, and how the reference spells each item's keys.
struct Staff {
    arrays: packed::Staff,
    leftovers: Vec<u32>,
    spelled: Vec<Vec<Spelled>>,
}

impl Staff {
    fn of(part: &Part) -> Self {
        let items = part.staff.iter().flatten().flatten();
        Self {
            arrays: packed::staff(&part.staff),
            leftovers: packed::leftovers(&part.leftovers),
            spelled: items.map(|item| item.spelled.clone()).collect(),
        }
    }
}

pub fn answered(case: &Case, number: u32, part: &Part) -> Checked {
    let wanted = Staff::of(part);
    let packed::Staff {
        counts,
        heads,
        keys,
    } = &wanted.arrays;
    rooms(case, [case.work], &wanted, |[work], wanted| {
        size(case, number, work, wanted)
    })?;
    let leftovers = wanted.leftovers.len();
    let needed = [counts.len(), heads.len(), keys.len(), leftovers, case.work];
    rooms(case, needed, &wanted, |rooms, wanted| {
        engrave(case, number, rooms, wanted)
    })
}

/// Also with too little space: every other number comes before 8.
pub fn refused(case: &Case, part: u32, number: u32) -> Checked {
    for work in [0, 9, case.work + 1] {
        size(case, part, work, Err(number))?;
        engrave(case, part, [5, 2, 3, 6, work], Err(number))?;
    }
    engrave(case, part, [0, 0, 0, 0, case.work], Err(number))
}

fn size_of(wanted: Wanted<Staff>) -> StaffSize {
    StaffSize {
        number: number(wanted),
        bars: wanted.map_or(0, |staff| staff.arrays.counts.len() / 4),
        items: wanted.map_or(0, |staff| staff.arrays.heads.len()),
    }
}

fn size(case: &Case, part: u32, work: usize, wanted: Wanted<Staff>) -> Checked {
    let mut work = Lent::new(work);
    let answer = library::staff_size(&case.given, part, &mut work);
    same("staff size", answer, size_of(wanted))?;
    work.cleared("work after staff size")
}

fn engrave(case: &Case, part: u32, rooms: [usize; 5], wanted: Wanted<Staff>) -> Checked {
    let (mut counts, mut heads) = (Lent::new(rooms[0]), Lent::new(rooms[1]));
    let (mut keys, mut leftovers) = (Lent::new(rooms[2]), Lent::new(rooms[3]));
    let mut work = Lent::new(rooms[4]);
    let answer = library::engrave(
        &case.given,
        part,
        &mut counts,
        &mut heads,
        &mut keys,
        &mut leftovers,
        &mut work,
    );
    same("staff", answer, size_of(wanted))?;
    work.cleared("work after engraving")?;
    match wanted {
        Ok(staff) => {
            counts.holds("item counts", &staff.arrays.counts)?;
            heads.holds("item heads", &staff.arrays.heads)?;
            keys.holds("item keys", &staff.arrays.keys)?;
            leftovers.holds("leftovers", &staff.leftovers)?;
            spellings(keys.elements(), &staff.spelled)
        }
        Err(_) => {
            counts.untouched("item counts")?;
            heads.untouched("item heads")?;
            keys.untouched("item keys")?;
            leftovers.untouched("leftovers")
        }
    }
}

/// The reference's pitches are the keys of the library's bit sets, ascending and spelled.
fn spellings(keys: &[u64], wanted: &[Vec<Spelled>]) -> Checked {
    for (index, (masks, wanted)) in keys.chunks(2).zip(wanted).enumerate() {
        let keys = packed::keys_of([masks[0], masks[1]]);
        let spelled = keys.iter().map(|key| spelling::of_key(*key));
        if !spelled.clone().eq(wanted.iter().copied()) {
            let spelled: Vec<_> = spelled.collect();
            return Err(format!(
                "pitches of item {index}: {spelled:?}, wanted {wanted:?}"
            ));
        }
    }
    Ok(())
}
