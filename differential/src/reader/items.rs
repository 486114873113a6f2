//! The items of a staff, taken out of its arrays: section 7's output.

use super::{bars::Bar, values};
use crate::packed::Staff;

#[derive(Debug, Clone, Copy, PartialEq, Eq)]
pub struct Item {
    pub code: u32,
    pub dotted: bool,
    pub tie_in: bool,
    pub tie_out: bool,
    pub unpitched: bool,
    pub rest: bool,
    /// Bit k for key k.
    pub keys: u128,
}

impl Item {
    /// "Bits 0–3 code, 4 dot, 5 tie-in, 6 tie-out, 7 unpitched, 8 rest; bit k of the first for key k, of the second for
    /// key 64 + k."
    fn new(head: u32, first: u64, second: u64) -> Self {
        let bit = |number: u32| head >> number & 1 == 1;
        Self {
            code: head & 15,
            dotted: bit(4),
            tie_in: bit(5),
            tie_out: bit(6),
            unpitched: bit(7),
            rest: bit(8),
            keys: u128::from(first) | u128::from(second) << 64,
        }
    }

    pub fn length(&self, quarter: u64) -> Option<u64> {
        values::length(self.code, self.dotted, quarter)
    }

    /// The same where the value is right; of any other its whole ticks.
    pub fn ticks(&self, quarter: u64) -> u64 {
        values::ticks(self.code, self.dotted, quarter)
    }
}

/// An item with its place in time.
#[derive(Debug, Clone, Copy, PartialEq, Eq)]
pub struct Placed {
    pub start: u64,
    pub end: u64,
    pub item: Item,
}

/// "Bar by bar and voice by voice": four lists of items a bar. Where the arrays do not fit the counts, as many as there are.
pub fn lists(staff: &Staff) -> Vec<Vec<Item>> {
    let keys = staff.keys.chunks_exact(2);
    let items = staff.heads.iter().zip(keys);
    let mut items = items.map(|(&head, keys)| Item::new(head, keys[0], keys[1]));
    let counts = staff.counts.iter();
    counts
        .map(|&count| items.by_ref().take(count as usize).collect())
        .collect()
}

/// The lists of each bar, with the bar and the voice.
pub fn by_bar<'a>(
    bars: &'a [Bar],
    lists: &'a [Vec<Item>],
) -> impl Iterator<Item = (&'a Bar, usize, &'a [Item])> {
    let of_bar = |(bar, four): (&'a Bar, &'a [Vec<Item>])| {
        let voices = four.iter().enumerate();
        voices.map(move |(voice, items)| (bar, voice, &items[..]))
    };
    bars.iter().zip(lists.chunks(4)).flat_map(of_bar)
}

/// "A voice's items follow one another from the bar's start."
pub fn voices(quarter: u64, bars: &[Bar], lists: &[Vec<Item>]) -> [Vec<Placed>; 4] {
    let mut voices = [const { Vec::new() }; 4];
    for (bar, voice, items) in by_bar(bars, lists) {
        let mut start = bar.start;
        for &item in items {
            let end = start + item.ticks(quarter);
            voices[voice].push(Placed { start, end, item });
            start = end;
        }
    }
    voices
}
