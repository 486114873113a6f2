//! The notes of a track, in one of several styles.

use super::Random;
use super::track::Track;

/// How a run of notes is laid out. Ticks and lengths are multiples of `unit` before `jitter`.
struct Layout {
    style: u64,
    unit: u64,
    jitter: u64,
    quarter: u64,
    /// Where the next note may start.
    at: u64,
}

impl Layout {
    fn new(random: &mut Random, track: &Track) -> Self {
        let quarter = track.quarter;
        Self {
            style: random.below(8),
            unit: unit(random, quarter),
            jitter: match random.below(3) {
                0 => quarter / random.between(6, 20),
                _ => 0,
            },
            quarter,
            at: match random.below(3) {
                0 => track.some_tick(random),
                _ => 0,
            },
        }
    }

    /// Start and end of the note with this number.
    fn next(&mut self, random: &mut Random, track: &Track, number: u64) -> (u64, u64) {
        let (at, unit) = (self.at, self.unit);
        let long = unit * random.between(5, 40);
        let (start, length) = match self.style {
            // A line, now and then with a gap.
            0 => {
                let length = unit * random.between(1, 6);
                self.at += length + unit * random.pick(&[0, 0, 0, 1, 4]);
                (at, length)
            }
            // Chords: several notes before time moves on.
            1 => {
                self.at += unit * random.pick(&[0, 0, 0, 1, 2]);
                (at, unit * random.pick(&[2, 2, 2, 3, 4]))
            }
            // Overlaps in a window.
            2 => (at + unit * random.below(24), unit * random.between(1, 12)),
            // Long notes one after the other: more voices than four.
            3 => {
                self.at += unit * random.pick(&[0, 1, 1, 2]);
                (at, long)
            }
            // The same, many of them ending together: a new start finds ends alike.
            4 => {
                self.at += unit * random.pick(&[0, 1, 1]);
                let end = (at / (16 * unit) + 1) * 16 * unit + unit * random.pick(&[0, 0, 0, 4]);
                (at, end - at)
            }
            // Crowds: many lengths from one start, the next start often before the last end.
            5 => {
                self.at += unit * random.pick(&[0, 0, 0, 0, 0, 0, 3, 20]);
                (at, unit * random.between(1, 9))
            }
            // On the sixteenths, but each tenth note a thirty-second late.
            6 => {
                let sixteenth = (self.quarter / 4).max(1);
                self.at += sixteenth * random.pick(&[0, 1, 2]);
                let late = match number % 10 {
                    0 => sixteenth / 2,
                    _ => 0,
                };
                return (at + late, at + late + sixteenth * random.between(1, 5));
            }
            _ => (track.some_tick(random), random.below(3 * self.quarter + 1)),
        };
        let start = start + random.below(self.jitter + 1);
        let length = (length + random.below(self.jitter + 1)).saturating_sub(self.jitter / 2);
        (start, start + length)
    }

    fn count(&self, random: &mut Random, small: bool) -> u64 {
        match random.below(40) {
            0 if !small => random.between(60, 400),
            1..5 if !small => random.between(20, 60),
            _ if self.style == 6 => random.pick(&[9, 10, 10, 10, 11, 20]),
            _ => random.between(1, 12),
        }
    }
}

/// A raster for starts and lengths.
fn unit(random: &mut Random, quarter: u64) -> u64 {
    let random_unit = random.between(1, quarter);
    let units = [
        quarter / 4,
        quarter / 4,
        quarter / 8,
        quarter / 2,
        quarter,
        quarter / 3,
        quarter / 6,
        quarter / 16,
        random_unit,
        1,
    ];
    random.pick(&units).max(1)
}

impl Track {
    pub fn notes(&mut self, random: &mut Random, small: bool) {
        let mut layout = Layout::new(random, self);
        let any = random.channel();
        let mut channels = [random.pick(&[0, 0, 9, any]); 4];
        if random.once_in(4) {
            channels[3] = random.pick(&[9, 0]);
        }
        if random.once_in(6) {
            channels[2] = random.channel();
        }
        let keys = random.pick(&[(0, 127), (60, 62), (48, 72), (48, 72), (58, 69)]);
        for number in 0..layout.count(random, small) {
            let key = random.between(keys.0, keys.1) as u8;
            let (start, end) = layout.next(random, self, number);
            let channel = random.pick(&channels);
            self.note(random, start, end, channel, key);
            if random.once_in(40) {
                let channel = random.pick(&[9, any]);
                self.note(random, start, end, channel, key);
            }
        }
        if random.once_in(12) {
            self.pick_up(random, channels[0]);
        }
    }

    /// A short note close before the end of a bar of four quarters, behind all others.
    fn pick_up(&mut self, random: &mut Random, channel: u8) {
        let last = self.events.iter().map(|event| event.0).max().unwrap_or(0);
        let line = (last / (4 * self.quarter) + 1) * 4 * self.quarter;
        let start = line - random.between(1, self.quarter / 8 + 1);
        let (end, key) = (random.between(start, line), random.data());
        self.note(random, start, end, channel, key);
    }

    /// One note, its off sometimes missing, doubled or written as an on of velocity 0.
    fn note(&mut self, random: &mut Random, start: u64, end: u64, channel: u8, key: u8) {
        if random.once_in(40) {
            self.add(start, 8, channel, key, 0);
        }
        let velocity = random.between(1, 127) as u8;
        self.add(start, 9, channel, key, velocity);
        let offs = match random.below(40) {
            0 | 1 => 0,
            2 => 2,
            _ => 1,
        };
        for _ in 0..offs {
            match random.below(3) {
                0 => self.add(end, 9, channel, key, 0),
                _ => self.add(end, 8, channel, key, 64),
            }
        }
    }
}
