//! Files: the library's reader, or the plain scanner in C, beside a second reader.

pub mod all;
pub mod bench;
mod broken;
mod check;
pub mod classes;
mod draft;
mod entries;
pub mod facts;
mod large;
pub mod list;
pub mod reader;
pub mod real;
mod scrambled;
mod shrink;
mod sound;
pub mod tally;
#[cfg(test)]
mod tests;
mod writer;

use crate::checked::{Checked, named, same};
use crate::piece::Piece;
use classes::{Made, Plan};
#[cfg(feature = "library")]
pub use entries::LIBRARY;
pub use entries::{Entries, PieceSize, SCANNER};
use std::fmt::Write;
use std::time::Instant;
use tally::Tally;

/// The standard's worked files, of format 0 and of format 1.
pub const WORKED: [&[u8]; 2] = [
    include_bytes!("../../../examples/first.mid"),
    include_bytes!("../../../examples/second.mid"),
];

/// A line is printed after so many files.
const EVERY: u64 = 1_000_000;

/// Compares on the files of a seed until one differs or the time is over.
pub fn run(asked: &Entries, [seed, count, seconds]: [u64; 3]) -> Checked {
    let begun = Instant::now();
    let mut tally = Tally::default();
    let mut done = 0;
    while done < count && begun.elapsed().as_secs() < seconds {
        let checked = named(seed, done, || numbered(asked, seed, done, &mut tally))?;
        checked.map_err(|what| format!("file {seed} {done}, {what}"))?;
        done += 1;
        if done % EVERY == 0 {
            println!("{done} files, {} s", begun.elapsed().as_secs());
        }
    }
    print!("{tally}");
    let (name, seconds) = (asked.name, begun.elapsed().as_secs());
    println!("{name}: {done} of {count} files of seed {seed} compared, all agree, {seconds} s");
    Ok(())
}

fn numbered(asked: &Entries, seed: u64, index: u64, tally: &mut Tally) -> Checked {
    let made = classes::numbered(seed, index);
    let answer = reader::read(&made.bytes);
    let class = classes::CLASSES[made.class].name;
    planned(&made, &answer).map_err(|what| format!("{class}: {what}\n{}", hex(&made.bytes)))?;
    check::answer(asked, &made.bytes, &answer)
        .map_err(|what| format!("{class}: {what}\n{}", smallest(asked, &made.bytes)))?;
    tally.add(&made, &answer);
    Ok(())
}

/// The second reader answers as the file was made.
fn planned(made: &Made, answer: &Result<Piece, u32>) -> Checked {
    match &made.plan {
        Plan::Read(piece) => same("second reader", answer.as_ref(), Ok(piece)),
        Plan::Refused(number) => same("second reader", answer.as_ref().err(), Some(number)),
        Plan::Open => Ok(()),
    }
}

/// A small file on which the two still differ, and how.
fn smallest(asked: &Entries, bytes: &[u8]) -> String {
    let small = shrink::smallest(bytes, |smaller| check::file(asked, smaller).is_err());
    let why = check::file(asked, &small).err().unwrap_or_default();
    format!("smallest:\n{}\n{why}", hex(&small))
}

fn hex(bytes: &[u8]) -> String {
    let mut text = String::new();
    for byte in bytes {
        write!(text, "{byte:02x}").expect("a string takes all");
    }
    text
}
