//! Bars by their starts: section 4.

use crate::packed;

#[derive(Debug, Clone, Copy, PartialEq, Eq)]
pub struct Bar {
    pub start: u64,
    pub length: u64,
}

/// A bar is as long as it is to the next one; the last one's length is its meter's.
pub fn with_lengths(bars: &packed::Bars, quarter: u64) -> Vec<Bar> {
    let packed::Bars { starts, marks } = bars;
    let last = marks.last().map(|mark| of_meter(*mark, quarter));
    let next = starts.iter().skip(1).zip(starts);
    let lengths = next.map(|(next, start)| next - start).chain(last);
    let bar = |(&start, length)| Bar { start, length };
    starts.iter().zip(lengths).map(bar).collect()
}

/// "Length is 4 × p × upper / lower, whole part, at least 1."
fn of_meter(mark: u64, quarter: u64) -> u64 {
    let (upper, lower) = (mark & 255, mark >> 8 & 255);
    (4 * quarter * upper / lower).max(1)
}

/// Where the last bar ends.
pub fn end(bars: &[Bar]) -> u64 {
    bars.last().map_or(0, |bar| bar.start + bar.length)
}
