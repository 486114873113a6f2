//! The library's proof-reader beside the plain one, on engraved staffs and on changed ones.

mod case;
#[cfg(feature = "library")]
mod lent;
mod tally;

use crate::checked::{Checked, named};
use crate::generate::{self, Random};
use crate::packed::Staff;
use crate::piece::Piece;
use crate::shrink;
#[cfg(feature = "library")]
pub use lent::Library;
use std::time::Instant;
pub use tally::Tally;

/// A line is printed after so many changed staffs.
const EVERY: u64 = 200_000;

/// Who is asked about a piece: the library, or what stands in for it in a test.
pub trait Asked {
    fn about(piece: &Piece) -> Self;

    /// The staff that is engraved for a part that is there.
    fn engraved(&self, part: u32) -> Result<Staff, String>;

    /// The number and yes (1) or no (0) that a staff gets, with a work area of so many words.
    fn reading(&self, part: u32, staff: &Staff, work: usize) -> Result<[u32; 2], String>;
}

/// What the staffs of a piece are changed by.
pub fn random(seed: u64, index: u64) -> Random {
    Random::new(!seed ^ index.wrapping_mul(0xd134_2543_de82_ef95))
}

/// The pieces of a seed, one after the other.
pub struct Run {
    seed: u64,
    index: u64,
    /// A staff of the piece before.
    another: Staff,
    pub tally: Tally,
}

impl Run {
    pub fn new(seed: u64) -> Self {
        Self {
            seed,
            index: 0,
            another: Staff::default(),
            tally: Tally::default(),
        }
    }

    /// Compares on the next piece: all its parts, and some changed staffs of each.
    pub fn next<A: Asked>(&mut self) -> Checked {
        let Self { seed, index, .. } = *self;
        let piece = generate::numbered(seed, index);
        let compare = |piece: &Piece, tally: &mut Tally| {
            named(seed, index, || {
                case::piece::<A>(piece, random(seed, index), &self.another, tally)
            })
        };
        let staffs = compare(&piece, &mut self.tally)?.map_err(|what| {
            let what = what.lines().next().unwrap_or_default().to_string();
            let differing = |smaller: &Piece| compare(smaller, &mut Tally::default()).ok()?.err();
            format!(
                "piece {seed} {index}, {what}\n{}",
                smallest(&piece, differing)
            )
        })?;
        self.another = staffs.into_iter().next().unwrap_or_default();
        self.index += 1;
        Ok(())
    }
}

/// A small piece on which the two still differ, and how.
fn smallest(piece: &Piece, differing: impl Fn(&Piece) -> Option<String>) -> String {
    let small = shrink::smallest(piece, |smaller| differing(smaller).is_some());
    let why = differing(&small).unwrap_or_default();
    format!("smallest:\n{}{why}", small.print())
}

/// Until so many changed staffs of even parts are compared, the two differ, or the time is over.
pub fn run<A: Asked>(seed: u64, count: u64, seconds: u64) -> Checked {
    let begun = Instant::now();
    let mut run = Run::new(seed);
    let (mut staffs, mut lines) = (0, 0);
    while staffs < count && begun.elapsed().as_secs() < seconds {
        run.next::<A>()?;
        staffs = run.tally.staffs();
        if staffs / EVERY > lines {
            lines = staffs / EVERY;
            println!("{staffs} changed staffs, {} s", begun.elapsed().as_secs());
        }
    }
    print!("{}", run.tally);
    let seconds = begun.elapsed().as_secs();
    println!("{staffs} of {count} changed staffs of seed {seed} compared, all agree, {seconds} s");
    Ok(())
}
