//! One number for many answers.

use crate::answers::{Answers, Import};
use crate::packed;

/// FNV-1a, eight bytes at a time.
#[derive(Debug, Clone, PartialEq, Eq)]
pub struct Checksum(u64);

impl Default for Checksum {
    fn default() -> Self {
        Self(0xcbf2_9ce4_8422_2325)
    }
}

impl Checksum {
    pub fn value(&self) -> u64 {
        self.0
    }

    pub fn answers(&mut self, answers: &Answers) {
        match &answers.import {
            Err(number) => self.add(u64::from(*number)),
            Ok(import) => self.import(import),
        }
        match &answers.diagnostics {
            Err(number) => self.add(u64::from(*number)),
            Ok(list) => {
                let packed = packed::diagnostics(list);
                self.all(packed.places);
                self.all(packed.details);
            }
        }
    }

    fn import(&mut self, import: &Import) {
        let (head, key) = (&import.head, import.head.key);
        self.add(u64::from(head.tempo));
        self.add(u64::from(head.upper));
        self.add(u64::from(head.lower));
        self.add(key.map_or(99, |key| i64::from(key.fifths)) as u64);
        self.add(key.map_or(99, |key| u64::from(key.minor)));
        let bars = packed::bars(&import.bars);
        self.all(bars.starts);
        self.all(bars.marks);
        for part in &import.parts {
            self.add(u64::from(part.channel));
            self.add(u64::from(part.program));
            let staff = packed::staff(&part.staff);
            self.all(staff.counts.into_iter().map(u64::from));
            self.all(staff.heads.into_iter().map(u64::from));
            self.all(staff.keys);
            let automation = packed::automation(&part.automation);
            self.all(automation.counts.map(u64::from));
            self.all(automation.ticks);
            self.all(automation.words.into_iter().map(u64::from));
        }
    }

    fn all(&mut self, values: impl IntoIterator<Item = u64>) {
        let mut count = 0;
        for value in values {
            self.add(value);
            count += 1;
        }
        self.add(count);
    }

    fn add(&mut self, value: u64) {
        self.0 = (self.0 ^ value).wrapping_mul(0x0000_0100_0000_01b3);
        self.0 ^= self.0 >> 29;
    }
}
