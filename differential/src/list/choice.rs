//! Which pieces the list has: the shortest that reach what is looked for.

use super::{Entry, text};
use crate::coverage::Report;

/// How many pieces are to reach each fact, division and refusal, and how many are to have each written value.
const WANTED: usize = 5;
/// The longest text of a piece of these.
const LONGEST: usize = 6_000;
/// What no such piece reaches is looked for once in pieces of this length.
const LONGEST_OF_ALL: usize = 420_000;
/// So many pieces besides, the first whose texts are of these lengths.
const ORDINARY: usize = 40;
const ORDINARY_LENGTHS: std::ops::Range<usize> = 4_000..12_000;

pub struct Choice {
    /// For each thing that is looked for, how many chosen pieces have it.
    reached: Vec<usize>,
}

impl Choice {
    /// The chosen pieces, in the order of their texts' lengths.
    pub fn of(entries: Vec<Entry>) -> Vec<Entry> {
        let mut ordinary = 0;
        let mut sized = Vec::new();
        for entry in entries {
            let length = text::length(&entry);
            let whatever = ordinary < ORDINARY && ORDINARY_LENGTHS.contains(&length);
            ordinary += usize::from(whatever);
            sized.push((length, whatever, entry));
        }
        sized.sort_by_key(|(length, ..)| *length);
        let mut choice = Self {
            reached: Vec::new(),
        };
        let mut chosen = Vec::new();
        for (length, whatever, entry) in sized {
            let wanted = match length {
                _ if whatever => usize::MAX,
                0..=LONGEST => WANTED,
                0..=LONGEST_OF_ALL => 1,
                _ => continue,
            };
            if choice.takes(&entry, wanted) {
                chosen.push(entry);
            }
        }
        chosen
    }

    /// Takes a piece that has something of which fewer than `wanted` pieces were taken.
    fn takes(&mut self, entry: &Entry, wanted: usize) -> bool {
        let has = reached(entry);
        self.reached.resize(has.len(), 0);
        let news = has.iter().zip(&self.reached);
        let taken = news.into_iter().any(|(has, count)| *has && *count < wanted);
        if taken {
            for (count, has) in self.reached.iter_mut().zip(has) {
                *count += usize::from(has);
            }
        }
        taken
    }
}

/// For each thing that is looked for, whether the piece has it.
fn reached(entry: &Entry) -> Vec<bool> {
    let mut report = Report::default();
    report.add(&entry.piece, &entry.answers);
    let facts = report.facts().map(|(_, count)| count > 0);
    let divisions = report.divisions().map(|(_, count)| count > 0);
    let values = report.values().map(|(_, _, count)| count > 0);
    let refusals = (1..=6).map(|number| report.refused(number) > 0);
    let all = facts.chain(divisions).chain(values).chain(refusals);
    all.collect()
}
