//! The library on arbitrary arrays: no answer is compared but its number, and the proof-reader's yes or no.
//!
//! Whatever a call is given, it must give a number that it may give, or a result, and leave every
//! lent array as document 01 says. Numbers are those of `refusals`; whether 8 is due is told by the
//! lengths that the same call answered with more than enough room.

mod arrays;
mod call;
mod case;
mod check;
mod rooms;
mod staffs;
mod tally;
#[cfg(test)]
mod tests;
mod values;

use crate::checked::Checked;
use crate::generate::Random;
use case::Case;
use std::time::Instant;
use tally::Tally;

/// Runs the cases of a seed until one fails or the time is over.
pub fn run(seed: u64, count: u64, seconds: u64) -> Checked {
    let begun = Instant::now();
    let mut tally = Tally::default();
    let mut done = 0;
    while done < count && begun.elapsed().as_secs() < seconds {
        let checked = numbered(seed, done, &mut tally);
        checked.map_err(|what| format!("case {seed} {done}, {what}"))?;
        done += 1;
        if done % 20_000 == 0 {
            println!("{done} cases, {} s", begun.elapsed().as_secs());
        }
    }
    print!("{tally}");
    let (calls, seconds) = (tally.calls(), begun.elapsed().as_secs());
    println!("{done} of {count} cases of seed {seed}, {calls} calls, none failed, {seconds} s");
    Ok(())
}

/// Case number `index` of a seed: the same on every machine.
fn numbered(seed: u64, index: u64, tally: &mut Tally) -> Checked {
    let mut seeds = Random::new(seed ^ index.wrapping_mul(0xd134_2543_de82_ef95));
    let mut random = Random::new(seeds.number());
    let piece = arrays::some(&mut random);
    Case::new(piece, &mut random).run(&mut random, tally)
}
