//! What is looked for in a piece.

const FACTS: [&str; 65] = [
    "timecode",
    "division below 16",
    "several parts",
    "32 parts and more tracks with notes",
    "most notes not in part 0",
    "most notes in a track that is no part",
    "track without notes",
    "events behind an end of track",
    "10,000 bars",
    "end cut off at 10,000 bars",
    "bar of 255/1",
    "bar of one tick",
    "bar of length 0 raised to one tick",
    "bar without items",
    "meter change printed",
    "tempo mark",
    "key mark",
    "head key",
    "head tempo not 120",
    "head meter not that of bar 1",
    "fine grid",
    "off starts exactly a tenth",
    "start halfway between grid lines",
    "end raised to a grid step",
    "two channels with one key and start",
    "note past the last bar",
    "note past 10,000 bars",
    "four voices",
    "five chords at once",
    "nine chords at once",
    "five chords of one start",
    "keys given to a busy voice",
    "keys given that it had",
    "drum keys given to a pitched chord",
    "pitched keys given to an unpitched chord",
    "chord cut to a new start",
    "ends alike where a voice is cut",
    "chord of several keys",
    "chord of ten keys",
    "chord across keys 63 and 64",
    "unpitched",
    "channel 9",
    "channel 9 in a pitched chord",
    "tie inside a bar",
    "tie over a bar line",
    "chord over 50 bars",
    "50 bars of rest in a row, then notes",
    "empty voice between two that have items",
    "ticks left over",
    "ticks left over inside a tie",
    "ticks left over of a voice without items",
    "automation",
    "marker",
    "automation dropped by a marker",
    "no diagnostic",
    "diagnostic 1",
    "diagnostic 2",
    "diagnostic 3",
    "diagnostic 4",
    "diagnostic 5",
    "diagnostic 1 without notes",
    "diagnostic 2 without notes",
    "diagnostic 3 without notes",
    "diagnostic 4 without notes",
    "diagnostics 4 and 5 of two tracks",
];

/// Which facts one piece has.
pub struct Seen([bool; FACTS.len()]);

impl Default for Seen {
    fn default() -> Self {
        Self([false; FACTS.len()])
    }
}

impl Seen {
    /// The fact must be one of the list. Once present it stays.
    pub fn note(&mut self, fact: &str, present: bool) {
        let index = FACTS.iter().position(|known| *known == fact);
        self.0[index.expect("a known fact")] |= present;
    }
}

/// How many pieces have each fact.
#[derive(Debug, Clone, PartialEq, Eq)]
pub struct Counts([u64; FACTS.len()]);

impl Default for Counts {
    fn default() -> Self {
        Self([0; FACTS.len()])
    }
}

impl Counts {
    pub fn add(&mut self, seen: &Seen) {
        for (count, seen) in self.0.iter_mut().zip(seen.0) {
            *count += u64::from(seen);
        }
    }

    pub fn each(&self) -> impl Iterator<Item = (&'static str, u64)> {
        FACTS.into_iter().zip(self.0)
    }
}
