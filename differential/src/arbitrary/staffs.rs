//! Staffs for the proof-reader: right ones, changed ones, noise.

use super::values;
use crate::generate::Random;
use crate::mutate::{self, Sources};
use crate::packed::{self, Staff};
use crate::piece::Piece;
use crate::reader::{self, Answer};
use crate::{reference, refusals};

/// A staff, and what the plain proof-reader says of it where 1 to 7 let the part pass.
pub fn some(random: &mut Random, piece: &Piece, part: u32) -> (Staff, Option<Answer>) {
    if refusals::part(piece, part).is_some() {
        return (noise(random), None);
    }
    let import = reference::import(piece).expect("1 to 6 let it pass");
    let part = part as usize;
    let right = packed::staff(&import.parts[part].staff);
    let staff = match random.below(8) {
        0..3 => right,
        3..6 => changed(random, right),
        6 => fitting(random, right.counts.len()),
        _ => noise(random),
    };
    let parts = reader::parts(piece, &packed::bars(&import.bars));
    let answer = reader::read(&parts[part], &staff);
    (staff, Some(answer))
}

fn changed(random: &mut Random, right: Staff) -> Staff {
    let sources = Sources {
        staffs: &[right],
        part: 0,
        another: &Staff::default(),
    };
    mutate::some(random, &sources).1
}

/// Any items, as many as the counts say.
fn fitting(random: &mut Random, places: usize) -> Staff {
    let counts: Vec<u32> = (0..places).map(|_| random.below(3) as u32).collect();
    let items: u32 = counts.iter().sum();
    Staff {
        counts,
        heads: (0..items).map(|_| random.below(512) as u32).collect(),
        keys: (0..2 * items).map(|_| 1 << random.below(64)).collect(),
    }
}

/// Three arrays that have nothing to do with each other.
fn noise(random: &mut Random) -> Staff {
    let mut list = || {
        let length = random.below(20);
        (0..length).map(|_| values::number(random)).collect()
    };
    Staff {
        counts: list(),
        heads: list(),
        keys: (0..random.below(40)).map(|_| random.number()).collect(),
    }
}
