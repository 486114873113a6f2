//! One track: changes, automation, markers; its notes are in `notes`.

use super::Random;
use crate::piece::word;
use crate::refusals::MOST_DELTA;

/// A track while it is made: events with their ticks, in the order of insertion.
pub struct Track {
    pub quarter: u64,
    pub events: Vec<(u64, u32)>,
    /// Events of equal tick keep the order of insertion.
    ordered: bool,
}

impl Track {
    pub fn new(quarter: u64) -> Self {
        Self {
            quarter,
            events: Vec::new(),
            ordered: false,
        }
    }

    pub fn add(&mut self, tick: u64, kind: u8, a: u8, b: u8, c: u8) {
        self.events.push((tick, word(kind, a, b, c)));
    }

    pub fn fill(&mut self, random: &mut Random, first: bool, small: bool) {
        self.ordered = random.once_in(2);
        if !random.once_in(6) {
            self.notes(random, small);
            if random.once_in(8) {
                self.notes(random, true);
            }
        }
        if random.below(6) < if first { 4 } else { 1 } {
            self.changes(random);
        }
        if random.once_in(2) {
            let channels = [0, random.channel(), 9];
            self.automation(random, &channels);
        }
        if random.once_in(5) {
            self.markers(random);
        }
        if random.once_in(4) {
            for _ in 0..random.between(1, 3) {
                let (tick, kind) = (self.some_tick(random), random.pick(&[0, 1, 1]));
                self.add(tick, kind, 0, 0, 0);
            }
        }
    }

    /// A tick within about two bars, often on a beat.
    pub fn some_tick(&self, random: &mut Random) -> u64 {
        match random.below(4) {
            0 => 0,
            1 => random.below(9) * self.quarter,
            2 => random.below(33) * (self.quarter / 4).max(1),
            _ => random.below(8 * self.quarter + 2),
        }
    }

    /// Tempo, meter and key changes: a walk over bar lines that sometimes leaves them.
    fn changes(&mut self, random: &mut Random) {
        let mut tick = 0;
        let mut bar = 4 * self.quarter;
        for _ in 0..random.between(1, 6) {
            for _ in 0..random.pick(&[0, 1, 1, 2, 3]) {
                self.change(random, tick, &mut bar);
            }
            tick += bar.max(1) * random.pick(&[0, 1, 1, 2, 3]);
            if random.once_in(5) {
                tick += random.below(bar + 2);
            }
        }
    }

    fn change(&mut self, random: &mut Random, tick: u64, bar: &mut u64) {
        match random.below(3) {
            0 => {
                let any = random.below(1 << 24);
                let value = random.pick(&[
                    500_000, 500_000, 600_000, 428_571, 0, 1, 914, 915, 916, 60_060, 60_061,
                    16_777_215, any, any,
                ]);
                self.events.push((tick, 2 << 24 | value as u32));
            }
            1 => {
                let (upper, power) = self.meter(random);
                *bar = (4 * self.quarter * u64::from(upper)) >> power;
                self.add(tick, 3, upper, power, 0);
            }
            _ => {
                let fifths = match random.below(6) {
                    0 => random.byte(),
                    _ => (random.below(15) as i8 - 7) as u8,
                };
                self.add(tick, 4, fifths, random.below(2) as u8, 0);
            }
        }
    }

    fn meter(&self, random: &mut Random) -> (u8, u8) {
        match random.below(24) {
            0 => (0, random.below(8) as u8),
            1 => (random.byte(), random.below(8) as u8),
            2 => (random.between(1, 16) as u8, random.below(8) as u8),
            3 => random.pick(&[(255, 0), (1, 7), (1, 7)]),
            _ => random.pick(&[
                (4, 2),
                (4, 2),
                (3, 2),
                (2, 2),
                (5, 2),
                (6, 3),
                (7, 3),
                (12, 3),
                (2, 1),
                (3, 1),
                (1, 0),
                (3, 4),
                (5, 5),
            ]),
        }
    }

    fn message(random: &mut Random, channel: u8) -> u32 {
        let (b, c) = (random.data(), random.data());
        match random.pick(&[10, 11, 11, 12, 13, 14]) {
            kind @ (12 | 13) => word(kind, channel, b, 0),
            kind => word(kind, channel, b, c),
        }
    }

    fn automation(&mut self, random: &mut Random, channels: &[u8]) {
        for _ in 0..random.between(1, 8) {
            let channel = random.pick(channels);
            let message = Self::message(random, channel);
            self.events.push((self.some_tick(random), message));
        }
    }

    fn marker(&mut self, random: &mut Random, base: u8, spare: u8) {
        let tick = self.some_tick(random);
        self.add(tick, 5, base, spare, 0);
    }

    /// Markers of all kinds, most of them above automation that is mirrored or nearly so.
    fn markers(&mut self, random: &mut Random) {
        self.ordered = true;
        let base = random.below(6) as u8;
        let spare = base + 1 + random.below(6) as u8;
        let third = spare + 1 + random.below(3) as u8;
        match random.below(12) {
            0 => {
                let (a, b) = (random.byte(), random.byte());
                self.marker(random, a, b);
            }
            1 => self.marker(random, 16 + base, spare),
            2 => self.marker(random, base, spare | 0x80),
            3 => self.marker(random, base, base),
            4 => {
                self.marker(random, base, spare);
                self.marker(random, third, spare);
            }
            5 => {
                self.marker(random, base, spare);
                self.marker(random, spare, third);
            }
            6 => {
                self.marker(random, base, spare);
                self.marker(random, base, third);
                self.mirror(random, base, third);
            }
            7 => {
                for channel in 0..16 {
                    self.marker(random, (channel + 1) % 16, channel);
                }
            }
            8 => {
                self.marker(random, base, spare);
                self.marker(random, base, spare);
            }
            _ => self.marker(random, base, spare),
        }
        if !random.once_in(5) {
            self.mirror(random, base, spare);
        }
    }

    /// Automation on the base and its copy on the spare, one time in three a little off.
    fn mirror(&mut self, random: &mut Random, base: u8, spare: u8) {
        let count = random.between(1, 5);
        let fault = match random.below(3) {
            0 => Some((random.below(count), random.below(5))),
            _ => None,
        };
        let mut copies = Vec::new();
        for index in 0..count {
            let tick = self.some_tick(random);
            let message = Self::message(random, base);
            self.events.push((tick, message));
            let copy = message + (u32::from(spare) << 16) - (u32::from(base) << 16);
            match fault {
                Some((at, 0)) if at == index => copies.push((tick + 1, copy)),
                Some((at, 1)) if at == index => copies.push((tick, copy ^ 0x100)),
                Some((at, 2)) if at == index => {}
                Some((at, 3)) if at == index => copies.insert(0, (tick, copy)),
                Some((at, 4)) if at == index => copies.extend([(tick, copy); 2]),
                _ => copies.push((tick, copy)),
            }
        }
        self.events.extend(copies);
    }

    /// The (delta, word) list, with ends of track and now and then a long gap.
    pub fn finish(mut self, random: &mut Random) -> Vec<(u32, u32)> {
        if !self.ordered {
            for index in (1..self.events.len()).rev() {
                let other = random.below(index as u64 + 1) as usize;
                self.events.swap(index, other);
            }
        }
        self.events.sort_by_key(|event| event.0);
        let mut tick = 0;
        let mut list = Vec::new();
        for (at, word) in self.events {
            list.push(((at - tick).min(u64::from(MOST_DELTA)) as u32, word));
            tick = at;
        }
        let end = word(6, 0, 0, 0);
        match random.below(12) {
            0 => {}
            1 => list.insert(random.below(list.len() as u64 + 1) as usize, (0, end)),
            2 => list.insert(random.below(list.len() as u64 + 1) as usize, (7, end)),
            3 => list.extend([(0, end), (1, end)]),
            4 | 5 => list.push((random.below(4 * self.quarter + 1) as u32, end)),
            _ => list.push((0, end)),
        }
        if !list.is_empty() {
            let at = random.below(list.len() as u64) as usize;
            let bars = random.between(8, 120) as u32 * 4 * self.quarter as u32;
            match random.below(300) {
                0 | 1 => list[at].0 = random.pick(&[10_000, 1_000_000, 30_000_000, MOST_DELTA]),
                2..14 => list[at].0 = bars,
                _ => {}
            }
        }
        list
    }
}
