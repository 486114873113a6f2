//! How many calls a list has, by their answers.

use super::asked::Asked;
use std::collections::BTreeMap;
use std::fmt::{Display, Formatter, Result};

/// The calls of a list.
#[derive(Default)]
pub struct Calls {
    /// By the call's number and name, and by the refusal's number, 0 for an answer.
    counts: BTreeMap<(u32, &'static str), BTreeMap<u64, usize>>,
}

impl Calls {
    pub(super) fn add(&mut self, calls: &[Asked]) {
        for asked in calls {
            let of_call = self.counts.entry((asked.call.1, asked.call.0)).or_default();
            *of_call.entry(asked.answer[0]).or_default() += 1;
        }
    }

    /// How many calls of a name gave a number.
    pub fn of(&self, name: &str, number: u64) -> usize {
        let named = self.counts.iter().filter(|((_, one), _)| *one == name);
        named.filter_map(|(_, counts)| counts.get(&number)).sum()
    }

    /// All calls.
    pub fn sum(&self) -> usize {
        self.counts.values().flat_map(BTreeMap::values).sum()
    }
}

impl Display for Calls {
    fn fmt(&self, out: &mut Formatter) -> Result {
        writeln!(out, "calls {}", self.sum())?;
        for ((_, name), counts) in &self.counts {
            write!(out, "  {name}: answered {}", counts.get(&0).unwrap_or(&0))?;
            for (number, count) in counts.iter().filter(|(number, _)| **number > 0) {
                write!(out, ", refused {number}: {count}")?;
            }
            writeln!(out)?;
        }
        Ok(())
    }
}
