//! What a run has met: the answers by class, and what the sound files use.

use super::classes::{CLASSES, Made, Plan};
use super::facts::Fact;
use crate::piece::Piece;
use std::fmt::{Display, Formatter, Result};

/// The numbers of `read_size`; 0 is a piece.
pub const NUMBERS: [u32; 7] = [0, 2, 3, 5, 11, 12, 13];

/// How often each number was answered.
#[derive(Debug, Clone, Copy, Default, PartialEq, Eq)]
pub struct Counts([u64; NUMBERS.len()]);

impl Counts {
    pub fn add(&mut self, answer: &std::result::Result<Piece, u32>) {
        let number = answer.as_ref().err().copied().unwrap_or(0);
        let place = NUMBERS.iter().position(|&one| one == number);
        self.0[place.expect("a number of the call's own")] += 1;
    }

    pub fn of(&self, number: u32) -> u64 {
        let counts = NUMBERS.iter().zip(self.0);
        counts
            .filter(|count| *count.0 == number)
            .map(|count| count.1)
            .sum()
    }

    pub fn sum(&self) -> u64 {
        self.0.iter().sum()
    }
}

impl Display for Counts {
    fn fmt(&self, out: &mut Formatter) -> Result {
        self.0
            .iter()
            .try_for_each(|count| write!(out, "{count:>11}"))
    }
}

/// The columns above rows of `Counts`.
pub fn columns(title: &str) -> String {
    let names = NUMBERS.map(|number| match number {
        0 => format!("{:>11}", "read"),
        _ => format!("{number:>11}"),
    });
    format!("{title:38}{:>11}{}", "files", names.concat())
}

/// A row below `columns`.
pub fn row(name: &str, counts: &Counts) -> String {
    format!("{name:38}{:>11}{counts}", counts.sum())
}

pub struct Tally {
    classes: Vec<Counts>,
    facts: [u64; Fact::ALL.len()],
    bytes: u64,
}

impl Default for Tally {
    fn default() -> Self {
        Self {
            classes: vec![Counts::default(); CLASSES.len()],
            facts: [0; Fact::ALL.len()],
            bytes: 0,
        }
    }
}

impl Tally {
    pub fn add(&mut self, made: &Made, answer: &std::result::Result<Piece, u32>) {
        self.classes[made.class].add(answer);
        self.bytes += made.bytes.len() as u64;
        if matches!(made.plan, Plan::Read(_)) {
            for fact in Fact::ALL {
                self.facts[fact as usize] += u64::from(made.facts.has(fact));
            }
        }
    }

    pub fn class(&self, class: usize) -> &Counts {
        &self.classes[class]
    }

    pub fn fact(&self, fact: Fact) -> u64 {
        self.facts[fact as usize]
    }
}

impl Display for Tally {
    fn fmt(&self, out: &mut Formatter) -> Result {
        writeln!(out, "{}", columns("class"))?;
        let mut all = Counts::default();
        for (class, counts) in CLASSES.iter().zip(&self.classes) {
            writeln!(out, "{}", row(class.name, counts))?;
            for (sum, count) in all.0.iter_mut().zip(counts.0) {
                *sum += count;
            }
        }
        writeln!(out, "{}", row("all", &all))?;
        writeln!(out, "bytes {}", self.bytes)?;
        for fact in Fact::ALL {
            let count = self.fact(fact);
            writeln!(
                out,
                "sound files with {:20}{count:>11}",
                format!("{fact:?}")
            )?;
        }
        Ok(())
    }
}
