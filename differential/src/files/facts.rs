//! What of the rules' freedoms a file uses.

/// Named as they are printed.
#[derive(Debug, Clone, Copy, PartialEq, Eq)]
pub enum Fact {
    LongHeader,
    UnknownChunk,
    UnknownLast,
    PaddedDelta,
    PaddedLength,
    RunningStatus,
    StatusRepeated,
    SystemEvent,
    EmptySystemEvent,
    OtherMeta,
    EmptyMeta,
    LongMeta,
    Marker,
    NearMarker,
    Timecode,
    LargeDelta,
}

impl Fact {
    pub const ALL: [Self; 16] = [
        Self::LongHeader,
        Self::UnknownChunk,
        Self::UnknownLast,
        Self::PaddedDelta,
        Self::PaddedLength,
        Self::RunningStatus,
        Self::StatusRepeated,
        Self::SystemEvent,
        Self::EmptySystemEvent,
        Self::OtherMeta,
        Self::EmptyMeta,
        Self::LongMeta,
        Self::Marker,
        Self::NearMarker,
        Self::Timecode,
        Self::LargeDelta,
    ];
}

#[derive(Debug, Clone, Copy, Default, PartialEq, Eq)]
pub struct Facts(u32);

impl Facts {
    pub fn note(&mut self, fact: Fact, holds: bool) {
        self.0 |= u32::from(holds) << fact as u32;
    }

    pub fn has(self, fact: Fact) -> bool {
        self.0 >> fact as u32 & 1 == 1
    }
}
