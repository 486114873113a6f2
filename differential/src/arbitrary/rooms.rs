//! Part numbers and the lengths of lent arrays.

use super::call::Rooms;
use crate::generate::Random;

/// A part number, most often one of a part that is there.
pub fn part(random: &mut Random, count: u32) -> u32 {
    match random.below(12) {
        0 => random.pick(&[0, 1, 2, 31, 32, 33, 65_535, 1 << 31, u32::MAX]),
        1 => count,
        2 => random.number() as u32,
        3..6 => count.saturating_sub(1),
        6..9 => random.below(u64::from(count.max(1))) as u32,
        _ => 0,
    }
}

/// Rooms about the needed ones: half of the time enough, then often just enough.
pub fn some(random: &mut Random, needed: &Rooms) -> Rooms {
    let enough = random.once_in(2);
    let outputs = needed.outputs.iter();
    Rooms {
        outputs: outputs
            .map(|needed| match enough || random.once_in(3) {
                true => more(random, *needed),
                false => any(random, *needed, 1),
            })
            .collect(),
        work: match enough || random.once_in(2) {
            true => more(random, needed.work),
            false => any(random, needed.work, 16),
        },
    }
}

fn more(random: &mut Random, needed: usize) -> usize {
    match random.below(8) {
        0 => needed + 1,
        1 => needed + random.below(40) as usize,
        2 => 2 * needed + random.below(3_000) as usize,
        _ => needed,
    }
}

fn any(random: &mut Random, needed: usize, step: usize) -> usize {
    match random.below(8) {
        0 => random.below(4) as usize,
        1 => random.below(5_000) as usize,
        2 => random.below(needed as u64 + 1) as usize,
        3 => needed.saturating_sub(step),
        4 => needed + step,
        5 => needed,
        _ => needed.saturating_sub(1),
    }
}
