//! The proved library's C entries, behind safe functions. Those that read files are in `files::entries`.

use crate::checked::Checked;
pub use crate::lent::{Cell, Lent};
use crate::packed::Staff;
use crate::piece::Piece;

#[repr(C)]
#[derive(Debug, Clone, Copy, PartialEq, Eq, Default)]
pub struct Head {
    pub number: u32,
    pub tempo: u32,
    pub upper: u32,
    pub lower: u32,
    pub has_key: u32,
    pub fifths: i32,
    pub minor: u32,
}

#[repr(C)]
#[derive(Debug, Clone, Copy, PartialEq, Eq, Default)]
pub struct Count {
    pub number: u32,
    pub count: u32,
}

#[repr(C)]
#[derive(Debug, Clone, Copy, PartialEq, Eq, Default)]
pub struct PartHead {
    pub number: u32,
    pub channel: u32,
    pub program: u32,
}

#[repr(C)]
#[derive(Debug, Clone, Copy, PartialEq, Eq, Default)]
pub struct Automation {
    pub number: u32,
    pub counts: [usize; 4],
}

#[repr(C)]
#[derive(Debug, Clone, Copy, PartialEq, Eq, Default)]
pub struct StaffSize {
    pub number: u32,
    pub bars: usize,
    pub items: usize,
}

/// `right` is 1 for yes and 0 for no.
#[repr(C)]
#[derive(Debug, Clone, Copy, PartialEq, Eq, Default)]
pub struct Reading {
    pub number: u32,
    pub right: u32,
}

#[repr(C)]
#[derive(Debug, Clone, Copy, PartialEq, Default)]
pub struct Beats {
    pub number: u32,
    pub beats: f64,
}

#[repr(C)]
#[derive(Debug, Clone, Copy, PartialEq, Eq, Default)]
pub struct Spelling {
    pub number: u32,
    pub step: u32,
    pub octave: i32,
    pub alter: i32,
}

type Words = *const u32;

#[rustfmt::skip]
unsafe extern "C" {
    fn acorde_beats(code: u32, dots: u32) -> Beats;
    fn acorde_spelling(key: u32) -> Spelling;
    fn acorde_head(s: Words, sn: usize, d: Words, dn: usize, w: Words, wn: usize) -> Head;
    fn acorde_part_count(s: Words, sn: usize, d: Words, dn: usize, w: Words, wn: usize) -> Count;
    fn acorde_part_head(s: Words, sn: usize, d: Words, dn: usize, w: Words, wn: usize, part: u32) -> PartHead;
    fn acorde_bars(s: Words, sn: usize, d: Words, dn: usize, w: Words, wn: usize,
        starts: *mut u64, starts_n: usize, marks: *mut u64, marks_n: usize) -> Count;
    fn acorde_automation(s: Words, sn: usize, d: Words, dn: usize, w: Words, wn: usize, part: u32,
        ticks: *mut u64, ticks_n: usize, out: *mut u32, out_n: usize) -> Automation;
    fn acorde_staff_size(s: Words, sn: usize, d: Words, dn: usize, w: Words, wn: usize, part: u32,
        work: *mut u64, work_n: usize) -> StaffSize;
    fn acorde_engrave(s: Words, sn: usize, d: Words, dn: usize, w: Words, wn: usize, part: u32,
        counts: *mut u32, counts_n: usize, heads: *mut u32, heads_n: usize,
        keys: *mut u64, keys_n: usize, leftovers: *mut u32, leftovers_n: usize,
        work: *mut u64, work_n: usize) -> StaffSize;
    fn acorde_proof_read(s: Words, sn: usize, d: Words, dn: usize, w: Words, wn: usize, part: u32,
        counts: Words, counts_n: usize, heads: Words, heads_n: usize,
        keys: *const u64, keys_n: usize, work: *mut u64, work_n: usize) -> Reading;
    fn acorde_diagnostics(s: Words, sn: usize, d: Words, dn: usize, w: Words, wn: usize,
        places: *mut u64, places_n: usize, details: *mut u64, details_n: usize,
        work: *mut u64, work_n: usize) -> Count;
}

/// A piece's three arrays, lent.
pub struct Given {
    sizes: Lent<u32>,
    deltas: Lent<u32>,
    words: Lent<u32>,
}

impl Given {
    pub fn of(piece: &Piece) -> Self {
        Self {
            sizes: Lent::of(&piece.sizes),
            deltas: Lent::of(&piece.deltas),
            words: Lent::of(&piece.words),
        }
    }

    /// The arrays are still those of the piece.
    pub fn holds(&self, piece: &Piece) -> Checked {
        self.sizes.holds("sizes given", &piece.sizes)?;
        self.deltas.holds("deltas given", &piece.deltas)?;
        self.words.holds("words given", &piece.words)
    }

    #[cfg(test)]
    pub fn arrays_mut(&mut self) -> [&mut Lent<u32>; 3] {
        [&mut self.sizes, &mut self.deltas, &mut self.words]
    }
}

/// A staff's three arrays, lent to be read.
pub struct GivenStaff {
    counts: Lent<u32>,
    heads: Lent<u32>,
    keys: Lent<u64>,
}

impl GivenStaff {
    pub fn of(staff: &Staff) -> Self {
        Self {
            counts: Lent::of(&staff.counts),
            heads: Lent::of(&staff.heads),
            keys: Lent::of(&staff.keys),
        }
    }

    /// The arrays are still those of the staff.
    pub fn holds(&self, staff: &Staff) -> Checked {
        self.counts.holds("counts given", &staff.counts)?;
        self.heads.holds("heads given", &staff.heads)?;
        self.keys.holds("keys given", &staff.keys)
    }
}

/// Calls an entry: the piece's three arrays, plain values, then the arrays that it may write to.
macro_rules! call {
    ($entry:ident, $given:expr, [$($value:expr),*], [$($lent:expr),*]) => {{
        let (s, d, w) = ($given.sizes.elements(), $given.deltas.elements(), $given.words.elements());
        call!(@ $entry, (s.as_ptr(), s.len(), d.as_ptr(), d.len(), w.as_ptr(), w.len() $(, $value)*), $($lent),*)
    }};
    (@ $entry:ident, ($($argument:expr),*), $lent:expr $(, $rest:expr)*) => {{
        let room = $lent.elements_mut();
        call!(@ $entry, ($($argument,)* room.as_mut_ptr(), room.len()), $($rest),*)
    }};
    // The arrays are borrowed for the whole call, no two of them are one, and the lengths are theirs.
    (@ $entry:ident, ($($argument:expr),*),) => { unsafe { $entry($($argument),*) } };
}

pub fn beats(code: u32, dots: u32) -> Beats {
    // Numbers alone are passed.
    unsafe { acorde_beats(code, dots) }
}

pub fn spelling(key: u32) -> Spelling {
    // As above.
    unsafe { acorde_spelling(key) }
}

pub fn head(given: &Given) -> Head {
    call!(acorde_head, given, [], [])
}

pub fn part_count(given: &Given) -> Count {
    call!(acorde_part_count, given, [], [])
}

pub fn part_head(given: &Given, part: u32) -> PartHead {
    call!(acorde_part_head, given, [part], [])
}

pub fn bars(given: &Given, starts: &mut Lent<u64>, marks: &mut Lent<u64>) -> Count {
    call!(acorde_bars, given, [], [starts, marks])
}

pub fn automation(
    given: &Given,
    part: u32,
    ticks: &mut Lent<u64>,
    words: &mut Lent<u32>,
) -> Automation {
    call!(acorde_automation, given, [part], [ticks, words])
}

pub fn staff_size(given: &Given, part: u32, work: &mut Lent<u64>) -> StaffSize {
    call!(acorde_staff_size, given, [part], [work])
}

pub fn engrave(
    given: &Given,
    part: u32,
    counts: &mut Lent<u32>,
    heads: &mut Lent<u32>,
    keys: &mut Lent<u64>,
    leftovers: &mut Lent<u32>,
    work: &mut Lent<u64>,
) -> StaffSize {
    call!(
        acorde_engrave,
        given,
        [part],
        [counts, heads, keys, leftovers, work]
    )
}

pub fn proof_read(given: &Given, part: u32, staff: &GivenStaff, work: &mut Lent<u64>) -> Reading {
    let (c, h, k) = (
        staff.counts.elements(),
        staff.heads.elements(),
        staff.keys.elements(),
    );
    let (counts, heads, keys) = (c.as_ptr(), h.as_ptr(), k.as_ptr());
    call!(
        acorde_proof_read,
        given,
        [part, counts, c.len(), heads, h.len(), keys, k.len()],
        [work]
    )
}

pub fn diagnostics(
    given: &Given,
    places: &mut Lent<u64>,
    details: &mut Lent<u64>,
    work: &mut Lent<u64>,
) -> Count {
    call!(acorde_diagnostics, given, [], [places, details, work])
}
