//! The answers in the array layouts of document 01, to be compared with lent arrays.

use crate::answers::{self, Bar, Diagnostic, Import, Item, Leftover, Measure};

/// Section 4.
#[derive(Debug, Clone, Default, PartialEq, Eq)]
pub struct Bars {
    pub starts: Vec<u64>,
    pub marks: Vec<u64>,
}

/// Section 7: four counts a bar, a head and two key masks (low, high) an item.
#[derive(Debug, Clone, Default, PartialEq, Eq)]
pub struct Staff {
    pub counts: Vec<u32>,
    pub heads: Vec<u32>,
    pub keys: Vec<u64>,
}

impl Staff {
    /// The arrays, one a line; heads and keys in sixteens.
    pub fn print(&self) -> String {
        let Self {
            counts,
            heads,
            keys,
        } = self;
        format!("counts {counts:?}\nheads {heads:x?}\nkeys {keys:x?}")
    }
}

/// Section 9.
#[derive(Debug, Clone, Default, PartialEq, Eq)]
pub struct Automation {
    pub counts: [u32; 4],
    pub ticks: Vec<u64>,
    pub words: Vec<u32>,
}

/// Section 10.
#[derive(Debug, Clone, Default, PartialEq, Eq)]
pub struct Diagnostics {
    pub places: Vec<u64>,
    pub details: Vec<u64>,
}

pub fn bars(bars: &[Bar]) -> Bars {
    Bars {
        starts: bars.iter().map(|bar| bar.start).collect(),
        marks: bars.iter().map(mark).collect(),
    }
}

fn mark(bar: &Bar) -> u64 {
    let fifths = bar.key.map_or(0, |key| i64::from(key.fifths) + 8) as u64;
    let minor = bar.key.is_some_and(|key| key.minor);
    u64::from(bar.upper)
        | u64::from(bar.lower) << 8
        | u64::from(bar.printed) << 16
        | u64::from(bar.tempo.unwrap_or(0)) << 17
        | fifths << 27
        | u64::from(minor) << 32
}

/// The staff of each part.
pub fn staffs(import: &Import) -> Vec<Staff> {
    let parts = import.parts.iter();
    parts.map(|part| staff(&part.staff)).collect()
}

pub fn staff(staff: &[Measure]) -> Staff {
    let items = || staff.iter().flatten().flatten();
    Staff {
        counts: staff
            .iter()
            .flatten()
            .map(|voice| voice.len() as u32)
            .collect(),
        heads: items().map(head).collect(),
        keys: items().flat_map(key_masks).collect(),
    }
}

/// Four a bar, in the order of the counts.
pub fn leftovers(leftovers: &[[Leftover; 4]]) -> Vec<u32> {
    let voices = leftovers.iter().flatten();
    voices.map(|leftover| leftover.ticks).collect()
}

fn head(item: &Item) -> u32 {
    u32::from(item.code)
        | u32::from(item.dots) << 4
        | u32::from(item.tie_in) << 5
        | u32::from(item.tie_out) << 6
        | u32::from(item.unpitched) << 7
        | u32::from(item.rest) << 8
}

fn key_masks(item: &Item) -> [u64; 2] {
    let mut masks = [0; 2];
    for &key in &item.keys {
        masks[usize::from(key / 64)] |= 1 << (key % 64);
    }
    masks
}

/// The keys of two masks, ascending.
pub fn keys_of(masks: [u64; 2]) -> Vec<u8> {
    let set = |key: &u8| masks[usize::from(key / 64)] >> (key % 64) & 1 == 1;
    (0..128).filter(set).collect()
}

pub fn automation(automation: &answers::Automation) -> Automation {
    let lists = automation.lists();
    let entries = || lists.iter().copied().flatten();
    Automation {
        counts: lists.map(|list| list.len() as u32),
        ticks: entries().map(|entry| entry.tick).collect(),
        words: entries().map(|entry| entry.word).collect(),
    }
}

pub fn diagnostics(diagnostics: &[Diagnostic]) -> Diagnostics {
    Diagnostics {
        places: diagnostics.iter().map(place).collect(),
        details: diagnostics.iter().map(detail).collect(),
    }
}

fn place(diagnostic: &Diagnostic) -> u64 {
    u64::from(diagnostic.code) << 48
        | u64::from(diagnostic.track) << 32
        | u64::from(diagnostic.event)
}

fn detail(diagnostic: &Diagnostic) -> u64 {
    diagnostic.tick << 16 | u64::from(diagnostic.channel) << 8 | u64::from(diagnostic.key)
}
