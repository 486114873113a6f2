//! A small piece of which something is still true.

use crate::piece::Piece;
use crate::refusals::{self, MOST_DELTA};

/// How many smaller pieces are tried at most.
const MOST_TRIALS: usize = 20_000;

/// The piece with tracks, runs of events and ticks taken away for as long as `differs` says yes.
/// A piece whose sizes disagree stays as it is.
pub fn smallest(piece: &Piece, differs: impl Fn(&Piece) -> bool) -> Piece {
    if refusals::admission(piece) == Some(1) {
        return piece.clone();
    }
    let mut small = Small {
        division: piece.sizes[0],
        tracks: piece.tracks(),
        differs,
        trials: 0,
    };
    while small.drop_tracks() | small.drop_events() | small.drop_ticks() {}
    Piece::of_tracks(small.division, &small.tracks)
}

type Tracks = Vec<Vec<(u32, u32)>>;

struct Small<F> {
    division: u32,
    tracks: Tracks,
    differs: F,
    trials: usize,
}

impl<F: Fn(&Piece) -> bool> Small<F> {
    /// Keeps what `change` made if it still differs.
    fn try_with(&mut self, change: impl FnOnce(&mut Tracks)) -> bool {
        if self.trials == MOST_TRIALS {
            return false;
        }
        self.trials += 1;
        let mut tracks = self.tracks.clone();
        change(&mut tracks);
        let kept = (self.differs)(&Piece::of_tracks(self.division, &tracks));
        if kept {
            self.tracks = tracks;
        }
        kept
    }

    fn drop_tracks(&mut self) -> bool {
        let mut changed = false;
        for index in (0..self.tracks.len()).rev() {
            changed |= self.try_with(|tracks| drop(tracks.remove(index)));
        }
        changed
    }

    /// Runs of events, the longest first. The event behind a run keeps its tick, if that fails its delta.
    fn drop_events(&mut self) -> bool {
        let mut changed = false;
        for index in 0..self.tracks.len() {
            let mut run = self.tracks[index].len().next_power_of_two();
            while run > 0 {
                let mut from = 0;
                while from < self.tracks[index].len() {
                    let dropped = self
                        .try_with(|tracks| drop_run(&mut tracks[index], from, run, true))
                        || self.try_with(|tracks| drop_run(&mut tracks[index], from, run, false));
                    if !dropped {
                        from += run;
                    }
                    changed |= dropped;
                }
                run /= 2;
            }
        }
        changed
    }

    /// Each delta to 0, or to a place where one less is too little.
    fn drop_ticks(&mut self) -> bool {
        let mut changed = false;
        for index in 0..self.tracks.len() {
            for event in 0..self.tracks[index].len() {
                let (mut too_little, mut enough) = (0, self.tracks[index][event].0);
                if enough > 0 && self.try_with(|tracks| tracks[index][event].0 = 0) {
                    (enough, changed) = (0, true);
                }
                while too_little + 1 < enough {
                    let middle = too_little + (enough - too_little) / 2;
                    if self.try_with(|tracks| tracks[index][event].0 = middle) {
                        (enough, changed) = (middle, true);
                    } else {
                        too_little = middle;
                    }
                }
            }
        }
        changed
    }
}

fn drop_run(track: &mut Vec<(u32, u32)>, from: usize, run: usize, keep_tick: bool) {
    let to = (from + run).min(track.len());
    let ticks: u64 = track.drain(from..to).map(|event| u64::from(event.0)).sum();
    if keep_tick && let Some(event) = track.get_mut(from) {
        event.0 = (u64::from(event.0) + ticks).min(u64::from(MOST_DELTA)) as u32;
    }
}
