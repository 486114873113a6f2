//! The answers of an import as plain data, in the terms of document 01.

/// All that is asked about one piece. A refusal is its number.
#[derive(Debug, Clone, PartialEq, Eq)]
pub struct Answers {
    pub import: Result<Import, u8>,
    pub diagnostics: Result<Vec<Diagnostic>, u8>,
}

#[derive(Debug, Clone, PartialEq, Eq)]
pub struct Import {
    pub head: Head,
    pub bars: Vec<Bar>,
    pub parts: Vec<Part>,
}

impl Import {
    /// The items of all parts, bar by bar and voice by voice.
    pub fn items(&self) -> impl Iterator<Item = &Item> {
        let measures = self.parts.iter().flat_map(|part| &part.staff);
        measures.flatten().flatten()
    }
}

#[derive(Debug, Clone, PartialEq, Eq)]
pub struct Head {
    pub tempo: u16,
    pub upper: u8,
    pub lower: u8,
    pub key: Option<Key>,
}

#[derive(Debug, Clone, Copy, PartialEq, Eq)]
pub struct Key {
    pub fifths: i8,
    pub minor: bool,
}

#[derive(Debug, Clone, PartialEq, Eq)]
pub struct Bar {
    pub start: u64,
    pub length: u64,
    pub upper: u8,
    pub lower: u8,
    pub printed: bool,
    pub tempo: Option<u16>,
    pub key: Option<Key>,
}

#[derive(Debug, Clone, PartialEq, Eq)]
pub struct Part {
    pub channel: u8,
    pub program: u8,
    pub staff: Vec<Measure>,
    pub leftovers: Vec<[Leftover; 4]>,
    pub automation: Automation,
}

/// The items of one bar, voice by voice.
pub type Measure = [Vec<Item>; 4];

/// Of a voice in a bar. The reference has none; `reference::leftovers` tells them from its bars, voices and staff.
#[derive(Debug, Clone, Copy, Default, PartialEq, Eq)]
pub struct Leftover {
    /// Some chord sounds in the bar.
    pub sounds: bool,
    /// What no item took.
    pub ticks: u32,
}

#[derive(Debug, Clone, PartialEq, Eq)]
pub struct Item {
    /// 0 longa to 9 hundred-twenty-eighth.
    pub code: u8,
    pub dots: u8,
    pub tie_in: bool,
    pub tie_out: bool,
    pub unpitched: bool,
    pub rest: bool,
    /// Ascending; none in a rest.
    pub keys: Vec<u8>,
    /// The same keys as they are spelled.
    pub spelled: Vec<Spelled>,
}

#[derive(Debug, Clone, Copy, PartialEq, Eq)]
pub struct Spelled {
    pub step: char,
    pub octave: i8,
    pub alter: i8,
}

/// Four lists, each in track order.
#[derive(Debug, Clone, Default, PartialEq, Eq)]
pub struct Automation {
    pub bends: Vec<Entry>,
    pub controllers: Vec<Entry>,
    pub programs: Vec<Entry>,
    pub pressures: Vec<Entry>,
}

impl Automation {
    /// The lists in their order.
    pub fn lists(&self) -> [&[Entry]; 4] {
        [
            &self.bends,
            &self.controllers,
            &self.programs,
            &self.pressures,
        ]
    }
}

/// A message at a tick of 480 per quarter, packed as a word of section 1.
#[derive(Debug, Clone, Copy, PartialEq, Eq)]
pub struct Entry {
    pub tick: u64,
    pub word: u32,
}

/// Channel and key are 255 where absent.
#[derive(Debug, Clone, Copy, PartialEq, Eq)]
pub struct Diagnostic {
    pub code: u8,
    pub track: u16,
    pub event: u32,
    pub tick: u64,
    pub channel: u8,
    pub key: u8,
}
