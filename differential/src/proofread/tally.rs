//! What a run has met.

use crate::mutate::KINDS;
use crate::reader::{Answer, Point};
use std::fmt::{Display, Formatter, Result};

/// Yes, and no by the first point that fails.
type Counts = [u64; 1 + Point::ALL.len()];

#[derive(Debug, Clone, PartialEq, Eq)]
pub struct Tally {
    /// Those that 1 to 6 let pass.
    pub pieces: u64,
    /// By number, 1 to 6.
    turned_back: [u64; 7],
    /// Engraved staffs: of uneven parts, and of even ones.
    engraved: [u64; 2],
    /// Changed staffs of uneven parts.
    uneven: u64,
    /// Changed staffs of even parts, by their kind.
    changed: Vec<Counts>,
}

impl Default for Tally {
    fn default() -> Self {
        Self {
            pieces: 0,
            turned_back: [0; 7],
            engraved: [0; 2],
            uneven: 0,
            changed: vec![Counts::default(); KINDS.len()],
        }
    }
}

impl Tally {
    pub fn turned_back(&mut self, number: u8) {
        self.turned_back[usize::from(number)] += 1;
    }

    pub fn engraved(&mut self, even: bool) {
        self.engraved[usize::from(even)] += 1;
    }

    pub fn changed(&mut self, kind: usize, answer: Answer) {
        match answer {
            Answer::Uneven => self.uneven += 1,
            Answer::Yes => self.changed[kind][0] += 1,
            Answer::No(point) => self.changed[kind][1 + point as usize] += 1,
        }
    }

    /// Changed staffs of even parts: yes, and no by point.
    pub fn answers(&self) -> (u64, [u64; Point::ALL.len()]) {
        let sum = |at: usize| self.changed.iter().map(|counts| counts[at]).sum();
        (sum(0), Point::ALL.map(|point| sum(1 + point as usize)))
    }

    /// How many changed staffs of even parts there were.
    pub fn staffs(&self) -> u64 {
        self.changed.iter().flatten().sum()
    }

    /// Each kind with the changed staffs that got yes and no.
    pub fn kinds(&self) -> impl Iterator<Item = (&'static str, u64, u64)> {
        let kinds = KINDS.iter().zip(&self.changed);
        kinds.map(|(kind, counts)| (kind.name, counts[0], counts[1..].iter().sum()))
    }
}

fn row(out: &mut Formatter, name: &str, counts: &[u64]) -> Result {
    let no: u64 = counts[1..].iter().sum();
    write!(out, "{name:26}{:>10}{no:>10}", counts[0])?;
    for count in &counts[1..] {
        write!(out, "{count:>10}")?;
    }
    writeln!(out)
}

impl Display for Tally {
    fn fmt(&self, out: &mut Formatter) -> Result {
        writeln!(out, "pieces {}", self.pieces)?;
        for number in 1..=6 {
            let count = self.turned_back[number];
            writeln!(out, "pieces turned back by {number}: {count}")?;
        }
        let [uneven, even] = self.engraved;
        writeln!(out, "engraved staffs: yes {even}, uneven {uneven}")?;
        writeln!(out, "changed staffs of uneven parts: {}", self.uneven)?;
        write!(out, "{:26}{:>10}{:>10}", "changed staffs", "yes", "no")?;
        for point in Point::ALL {
            write!(out, "{:>10}", format!("{point:?}"))?;
        }
        writeln!(out)?;
        let (yes, no) = self.answers();
        let all: Vec<_> = [yes].into_iter().chain(no).collect();
        row(out, "all", &all)?;
        for (kind, counts) in KINDS.iter().zip(&self.changed) {
            row(out, kind.name, counts)?;
        }
        Ok(())
    }
}
