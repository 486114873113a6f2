//! How often each call gave a result and each number.

use super::call::{Call, Outcome};
use std::fmt::{Display, Formatter, Result};

const NUMBERS: usize = 10;

#[derive(Default)]
pub struct Tally {
    counts: [[u64; NUMBERS]; Call::ALL.len()],
    /// The proof-reader's no and yes.
    read: [u64; 2],
}

impl Tally {
    /// Counts a checked outcome; number 0 is a result.
    pub fn add(&mut self, call: Call, outcome: &Outcome) {
        self.counts[call as usize][outcome.number as usize] += 1;
        if call == Call::ProofRead && outcome.number == 0 {
            self.read[outcome.fields[0] as usize] += 1;
        }
    }

    pub fn calls(&self) -> u64 {
        self.counts.iter().flatten().sum()
    }
}

impl Display for Tally {
    fn fmt(&self, out: &mut Formatter) -> Result {
        write!(out, "{:12}{:>9}", "call", "result")?;
        for number in 1..NUMBERS {
            write!(out, "{number:>9}")?;
        }
        for (call, counts) in Call::ALL.iter().zip(&self.counts) {
            write!(out, "\n{:12}", format!("{call:?}"))?;
            for count in counts {
                write!(out, "{count:>9}")?;
            }
        }
        let [no, yes] = self.read;
        writeln!(out, "\nproof-reader: yes {yes}, no {no}")
    }
}
