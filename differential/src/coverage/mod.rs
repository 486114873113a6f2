//! Counts what pieces reach, and sums the reference's answers up in one number.

mod checksum;
mod facts;
mod measures;
mod voices;

use crate::answers::{Answers, Automation, Diagnostic, Import};
use crate::generate::{self, DIVISIONS};
use crate::piece::Piece;
use crate::{reference, refusals};
use checksum::Checksum;
use facts::{Counts, Seen};
use std::fmt;

/// Totals over many pieces.
#[derive(Debug, Clone, Default, PartialEq, Eq)]
pub struct Report {
    pieces: u64,
    admitted: u64,
    refused: [u64; 8],
    events: u64,
    parts: u64,
    bars: u64,
    items: u64,
    entries: u64,
    diagnostics: u64,
    facts: Counts,
    /// Admitted pieces of each division of the list.
    divisions: [u64; DIVISIONS.len()],
    /// Items of each code, without and with a dot.
    values: [[u64; 2]; 9],
    checksum: Checksum,
}

impl Report {
    /// The first `count` pieces of a seed.
    pub fn of_seed(seed: u64, count: u64) -> Self {
        let mut report = Self::default();
        for index in 0..count {
            let piece = generate::numbered(seed, index);
            report.add(&piece, &reference::answers(&piece));
        }
        report
    }

    /// Each fact with the number of pieces that had it.
    pub fn facts(&self) -> impl Iterator<Item = (&'static str, u64)> {
        self.facts.each()
    }

    pub fn divisions(&self) -> impl Iterator<Item = (u32, u64)> {
        DIVISIONS.into_iter().zip(self.divisions)
    }

    /// Each written value as (code, dots, items).
    pub fn values(&self) -> impl Iterator<Item = (usize, usize, u64)> {
        let codes = self.values.into_iter().enumerate();
        codes.flat_map(|(code, dots)| [(code, 0, dots[0]), (code, 1, dots[1])])
    }

    pub fn refused(&self, number: usize) -> u64 {
        self.refused[number]
    }

    pub fn checksum(&self) -> u64 {
        self.checksum.value()
    }

    /// A piece and the reference's answers to it.
    pub fn add(&mut self, piece: &Piece, answers: &Answers) {
        self.pieces += 1;
        self.checksum.answers(answers);
        let mut seen = Seen::default();
        match &answers.import {
            Ok(import) => {
                self.add_import(piece, import);
                measures::see(&mut seen, piece, import);
                voices::see(&mut seen, piece, import);
            }
            Err(number) => self.refused[usize::from(*number)] += 1,
        }
        if let Ok(list) = &answers.diagnostics {
            self.diagnostics += list.len() as u64;
            see_diagnostics(&mut seen, answers.import.is_ok(), list);
        }
        self.facts.add(&seen);
    }

    fn add_import(&mut self, piece: &Piece, import: &Import) {
        self.admitted += 1;
        self.events += piece.words.len() as u64;
        self.parts += import.parts.len() as u64;
        self.bars += import.bars.len() as u64;
        for item in import.items() {
            self.items += 1;
            self.values[usize::from(item.code)][usize::from(item.dots)] += 1;
        }
        let entries = |list: &Automation| list.lists().iter().map(|list| list.len()).sum::<usize>();
        let parts = import.parts.iter();
        self.entries += parts.map(|part| entries(&part.automation)).sum::<usize>() as u64;
        if let Some(index) = DIVISIONS.iter().position(|d| *d == piece.sizes[0]) {
            self.divisions[index] += 1;
        }
        // One part further there is none.
        let parts = import.parts.len() as u32;
        assert_eq!(refusals::part(piece, parts - 1), None);
        assert_eq!(refusals::part(piece, parts), Some(7));
        self.refused[7] += 1;
    }
}

fn see_diagnostics(seen: &mut Seen, notes: bool, list: &[Diagnostic]) {
    assert!(in_order(list));
    let any = |code| list.iter().any(|diagnostic| diagnostic.code == code);
    seen.note("no diagnostic", list.is_empty());
    seen.note("diagnostic 1", any(1));
    seen.note("diagnostic 2", any(2));
    seen.note("diagnostic 3", any(3));
    seen.note("diagnostic 4", any(4));
    seen.note("diagnostic 5", any(5));
    seen.note("diagnostic 1 without notes", any(1) && !notes);
    seen.note("diagnostic 2 without notes", any(2) && !notes);
    seen.note("diagnostic 3 without notes", any(3) && !notes);
    seen.note("diagnostic 4 without notes", any(4) && !notes);
    let track = |code| {
        let mut tracks = list.iter().filter(move |d| d.code == code).map(|d| d.track);
        tracks.next().zip(tracks.next_back())
    };
    let several = |code| track(code).is_some_and(|(first, last)| first != last);
    seen.note(
        "diagnostics 4 and 5 of two tracks",
        several(4) && several(5),
    );
}

/// Groups 1, 2, 3, then track by track 4 before 5; events ascend but in group 5.
fn in_order(list: &[Diagnostic]) -> bool {
    let place = |d: &Diagnostic| match d.code {
        code @ 1..=3 => (code, d.track, 0, d.event, 0, 0),
        4 => (4, d.track, 4, d.event, 0, 0),
        _ => (4, d.track, 5, u32::from(d.channel), d.key, d.event),
    };
    list.is_sorted_by_key(place)
}

impl fmt::Display for Report {
    fn fmt(&self, f: &mut fmt::Formatter<'_>) -> fmt::Result {
        writeln!(f, "pieces {}", self.pieces)?;
        writeln!(f, "admitted {}", self.admitted)?;
        for number in 1..=6 {
            writeln!(f, "refused {number}: {}", self.refused[number])?;
        }
        let seven = self.refused[7];
        writeln!(f, "refused 7 (asked for one part more): {seven}")?;
        writeln!(f, "events {}", self.events)?;
        writeln!(f, "parts {}", self.parts)?;
        writeln!(f, "bars {}", self.bars)?;
        writeln!(f, "items {}", self.items)?;
        writeln!(f, "automation entries {}", self.entries)?;
        writeln!(f, "diagnostics {}", self.diagnostics)?;
        writeln!(f, "pieces with")?;
        for (fact, count) in self.facts() {
            writeln!(f, "  {fact}: {count}")?;
        }
        writeln!(f, "pieces with division")?;
        for (division, count) in self.divisions() {
            writeln!(f, "  {division}: {count}")?;
        }
        writeln!(f, "items with code and dots")?;
        for (code, dots, count) in self.values() {
            writeln!(f, "  {code} {dots}: {count}")?;
        }
        writeln!(f, "checksum {:016x}", self.checksum())
    }
}
