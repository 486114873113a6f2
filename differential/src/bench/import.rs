//! All calls that a whole import takes, into arrays lent once.

use crate::library::{self, Given, GivenStaff, Lent, Reading, StaffSize};
use crate::packed::Staff;
use crate::piece::Piece;
use crate::refusals;

const MOST_BARS: usize = 10_000;

pub struct Import {
    pub given: Given,
    parts: u32,
    bars: [Lent<u64>; 2],
    counts: Lent<u32>,
    heads: Lent<u32>,
    keys: Lent<u64>,
    leftovers: Lent<u32>,
    ticks: Lent<u64>,
    words: Lent<u32>,
    diagnostics: [Lent<u64>; 2],
    work: Lent<u64>,
}

impl Import {
    /// Arrays large enough for every part.
    pub fn of(piece: &Piece) -> Self {
        let given = Given::of(piece);
        let (parts, events) = (refusals::part_count(piece) as u32, piece.words.len());
        let mut work = Lent::new(refusals::work(piece));
        let sizes = (0..parts).map(|part| library::staff_size(&given, part, &mut work).items);
        let items = sizes.max().unwrap_or(0);
        Self {
            given,
            parts,
            bars: [MOST_BARS; 2].map(Lent::new),
            counts: Lent::new(4 * MOST_BARS),
            heads: Lent::new(items),
            keys: Lent::new(2 * items),
            leftovers: Lent::new(4 * MOST_BARS),
            ticks: Lent::new(events),
            words: Lent::new(events),
            diagnostics: [events + 1; 2].map(Lent::new),
            work,
        }
    }

    pub fn head(&self) {
        assert_eq!(library::head(&self.given).number, 0);
    }

    pub fn bars(&mut self) {
        let [starts, marks] = &mut self.bars;
        assert_eq!(library::bars(&self.given, starts, marks).number, 0);
    }

    pub fn staff_size(&mut self, part: u32) {
        let size = library::staff_size(&self.given, part, &mut self.work);
        assert_eq!(size.number, 0);
    }

    pub fn engrave(&mut self, part: u32) -> StaffSize {
        let size = library::engrave(
            &self.given,
            part,
            &mut self.counts,
            &mut self.heads,
            &mut self.keys,
            &mut self.leftovers,
            &mut self.work,
        );
        assert_eq!(size.number, 0);
        size
    }

    /// A part's staff as it is engraved, lent to be read, and its items.
    pub fn staff(&mut self, part: u32) -> (GivenStaff, usize) {
        let StaffSize { bars, items, .. } = self.engrave(part);
        let staff = Staff {
            counts: self.counts.elements()[..4 * bars].to_vec(),
            heads: self.heads.elements()[..items].to_vec(),
            keys: self.keys.elements()[..2 * items].to_vec(),
        };
        (GivenStaff::of(&staff), items)
    }

    /// The staff is right.
    pub fn proof_read(&mut self, part: u32, staff: &GivenStaff) {
        let reading = library::proof_read(&self.given, part, staff, &mut self.work);
        let (number, right) = (0, 1);
        assert_eq!(reading, Reading { number, right });
    }

    pub fn automation(&mut self, part: u32) {
        let (ticks, words) = (&mut self.ticks, &mut self.words);
        let counts = library::automation(&self.given, part, ticks, words);
        assert_eq!(counts.number, 0);
    }

    pub fn diagnostics(&mut self) {
        let [places, details] = &mut self.diagnostics;
        let count = library::diagnostics(&self.given, places, details, &mut self.work);
        assert_eq!(count.number, 0);
    }

    /// Heads, bars, each part's staff and automation, diagnostics; each part's size is asked first if `sized`.
    pub fn all(&mut self, sized: bool) {
        self.head();
        assert_eq!(library::part_count(&self.given).count, self.parts);
        self.bars();
        for part in 0..self.parts {
            assert_eq!(library::part_head(&self.given, part).number, 0);
            if sized {
                self.staff_size(part);
            }
            self.engrave(part);
            self.automation(part);
        }
        self.diagnostics();
    }

    /// How many calls `all` makes.
    pub fn calls(&self, sized: bool) -> usize {
        let each = if sized { 4 } else { 3 };
        4 + each * self.parts as usize
    }
}
