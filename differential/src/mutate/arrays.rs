//! Changes of the arrays as they are, whether they fit or not.

use crate::generate::Random;
use crate::packed::Staff;

fn index(random: &mut Random, length: usize) -> Option<usize> {
    (length > 0).then(|| random.below(length as u64) as usize)
}

/// One count, or two so that their sum is right only modulo 2^32.
pub fn count(random: &mut Random, staff: &mut Staff) -> Option<()> {
    let at = index(random, staff.counts.len())?;
    let count = &mut staff.counts[at];
    match random.below(5) {
        0 => *count = random.pick(&[u32::MAX, 1 << 31, 65_536, 4]),
        1 => *count = count.wrapping_sub(1),
        2 => *count = count.wrapping_add(1),
        _ => {
            *count = count.wrapping_add(1 << 31);
            let next = (at + 1) % staff.counts.len();
            staff.counts[next] = staff.counts[next].wrapping_add(1 << 31);
        }
    }
    Some(())
}

/// An item is counted for another voice or bar, often the next.
pub fn counts(random: &mut Random, staff: &mut Staff) -> Option<()> {
    let from = index(random, staff.counts.len())?;
    let to = match random.once_in(3) {
        true => index(random, staff.counts.len())?,
        false => (from + 1) % staff.counts.len(),
    };
    if staff.counts[from] == 0 {
        return None;
    }
    staff.counts[from] -= 1;
    staff.counts[to] = staff.counts[to].wrapping_add(1);
    Some(())
}

/// One array, at its end.
pub fn cut(random: &mut Random, staff: &mut Staff) -> Option<()> {
    let Staff {
        counts,
        heads,
        keys,
    } = staff;
    let kept = |random: &mut Random, length: usize| match random.once_in(2) {
        true => Some(length - random.between(1, 4).min(length as u64) as usize),
        false => index(random, length),
    };
    match random.below(3) {
        0 => counts.truncate(kept(random, counts.len())?),
        1 => heads.truncate(kept(random, heads.len())?),
        _ => keys.truncate(kept(random, keys.len())?),
    }
    Some(())
}

/// One array by a few elements, or all three by a bar of one rest.
pub fn lengthened(random: &mut Random, staff: &mut Staff) -> Option<()> {
    let more = random.between(1, 4) as usize;
    match random.below(4) {
        0 => staff.counts.extend(vec![random.below(2) as u32; more]),
        1 => staff.heads.extend(vec![0x102; more]),
        2 => staff.keys.extend(vec![random.below(2); more]),
        _ => {
            staff.counts.extend([1, 0, 0, 0]);
            staff.heads.push(0x102);
            staff.keys.extend([0, 0]);
        }
    }
    Some(())
}

/// Some words of one array are any numbers.
pub fn words(random: &mut Random, staff: &mut Staff) -> Option<()> {
    for _ in 0..random.pick(&[1, 1, 2, 5]) {
        match random.below(3) {
            0 => {
                let at = index(random, staff.counts.len())?;
                staff.counts[at] = random.number() as u32;
            }
            1 => {
                let at = index(random, staff.heads.len())?;
                staff.heads[at] = random.number() as u32 >> random.pick(&[0, 23, 23]);
            }
            _ => {
                let at = index(random, staff.keys.len())?;
                staff.keys[at] = random.number();
            }
        }
    }
    Some(())
}

/// Three arrays of nothing but noise, now and then of fitting lengths.
pub fn noise(random: &mut Random, staff: &mut Staff) -> Option<()> {
    let places = staff.counts.len().min(400);
    staff.counts = (0..places).map(|_| random.below(4) as u32).collect();
    let items: u32 = match random.once_in(3) {
        true => random.below(50) as u32,
        false => staff.counts.iter().sum(),
    };
    let head = |random: &mut Random| random.number() as u32 >> 23;
    let keys = |random: &mut Random| random.number() & random.number() & random.number();
    staff.heads = (0..items).map(|_| head(random)).collect();
    staff.keys = (0..2 * items).map(|_| keys(random)).collect();
    Some(())
}

/// No elements in one array, or in all.
pub fn empty(random: &mut Random, staff: &mut Staff) -> Option<()> {
    match random.below(4) {
        0 => staff.counts.clear(),
        1 => staff.heads.clear(),
        2 => staff.keys.clear(),
        _ => *staff = Staff::default(),
    }
    Some(())
}
