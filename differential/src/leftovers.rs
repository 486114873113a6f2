//! What a run on leftovers has met.

use crate::answers::{Import, Item, Leftover, Part};
use crate::packed;
use crate::piece::Piece;
use crate::reader;
use std::fmt::{Display, Formatter, Result};

/// Pieces with notes: those whose ticks per quarter are a multiple of 16, and the others.
#[derive(Debug, Clone, Default, PartialEq, Eq)]
pub struct Tally(pub [Half; 2]);

#[derive(Debug, Clone, Default, PartialEq, Eq)]
pub struct Half {
    pub pieces: u64,
    /// Those of all parts.
    pub bars: u64,
    /// No leftover of such a part is above 0.
    pub even_parts: u64,
    pub uneven_parts: u64,
    pub uneven_left: u64,
    /// Four a bar.
    pub voices: u64,
    pub sounding: u64,
    /// Voice 0 where nothing sounds in it.
    pub resting: u64,
    /// Of the voices that sound, with items and without, and of those voices 0: how many have a leftover.
    pub left_with_items: u64,
    pub left_without: u64,
    pub left_resting: u64,
    /// Pieces that have one of the last but one.
    pub pieces_without: u64,
    pub largest: u64,
}

impl Tally {
    /// A piece and what is wanted of it.
    pub fn add(&mut self, piece: &Piece, import: &Import) {
        let half = &mut self.0[usize::from(!piece.ticks_per_quarter().is_multiple_of(16))];
        let before = half.left_without;
        let plain = reader::parts(piece, &packed::bars(&import.bars));
        for (plain, part) in plain.iter().zip(&import.parts) {
            half.part(reader::uneven(plain), part);
        }
        half.pieces += 1;
        half.pieces_without += u64::from(half.left_without > before);
    }
}

impl Half {
    fn part(&mut self, uneven: bool, part: &Part) {
        let left = part.leftovers.iter().flatten().any(|voice| voice.ticks > 0);
        assert!(uneven || !left, "an even part has a leftover");
        self.even_parts += u64::from(!uneven);
        self.uneven_parts += u64::from(uneven);
        self.uneven_left += u64::from(left);
        self.bars += part.staff.len() as u64;
        for (measure, leftovers) in part.staff.iter().zip(&part.leftovers) {
            for (number, (items, leftover)) in measure.iter().zip(leftovers).enumerate() {
                self.voice(number, items, leftover);
            }
        }
    }

    fn voice(&mut self, number: usize, items: &[Item], leftover: &Leftover) {
        let left = u64::from(leftover.ticks > 0);
        self.voices += 1;
        self.largest = self.largest.max(leftover.ticks.into());
        if leftover.sounds {
            self.sounding += 1;
            match items.is_empty() {
                true => self.left_without += left,
                false => self.left_with_items += left,
            }
        } else if number == 0 {
            self.resting += 1;
            self.left_resting += left;
        } else {
            assert_eq!(left, 0, "nothing sounds");
        }
    }

    /// The voices that have a leftover.
    pub fn left(&self) -> u64 {
        self.left_with_items + self.left_without + self.left_resting
    }

    fn rows(&self) -> [(&'static str, u64); 14] {
        [
            ("pieces", self.pieces),
            ("bars of all parts", self.bars),
            ("even parts, leftovers all 0", self.even_parts),
            ("uneven parts", self.uneven_parts),
            ("uneven parts with a leftover", self.uneven_left),
            ("voices", self.voices),
            ("voices that sound", self.sounding),
            ("voices 0 that rest", self.resting),
            ("voices with a leftover", self.left()),
            ("  that sound and have items", self.left_with_items),
            ("  that sound and have none", self.left_without),
            ("  that rest", self.left_resting),
            ("pieces of voices that have none", self.pieces_without),
            ("largest leftover", self.largest),
        ]
    }
}

impl Display for Tally {
    fn fmt(&self, out: &mut Formatter) -> Result {
        let [by_sixteen, others] = &self.0;
        let title = "ticks per quarter";
        writeln!(
            out,
            "{title:32}{:>16}{:>16}",
            "multiple of 16", "no multiple"
        )?;
        for ((name, count), (_, other)) in by_sixteen.rows().into_iter().zip(others.rows()) {
            writeln!(out, "{name:32}{count:>16}{other:>16}")?;
        }
        Ok(())
    }
}
