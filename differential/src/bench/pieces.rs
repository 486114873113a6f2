//! Large pieces at 480 ticks per quarter. All but the last three kinds fill 10,000 bars of 4/4.

use crate::generate::Random;
use crate::piece::{Piece, word};

const TICKS: u64 = 10_000 * 4 * 480;

/// What most events of a piece are.
#[derive(Debug, Clone, Copy, PartialEq, Eq)]
pub enum Kind {
    /// A line: on and off by turns.
    Notes,
    /// Each note sounds until seven more have begun, so that voices are cut and keys given away.
    Overlaps,
    Controllers,
    Bends,
    Programs,
    /// Of kind 0.
    Metas,
    /// All in the first track, where alone they count.
    Tempos,
    /// In the parts, behind a first track: nothing follows from them.
    LaterTempos,
    /// Notes, among which one event in so many is a bend, a program, a meta or a tempo, by chance. The parts stand behind a
    /// first track with one tempo: in the first track the reference would look at every bar for every tempo, and the row
    /// would show little else.
    Mixed(u64),
    /// Parts of one note, and metas in a track behind them.
    MetasBehind,
    /// Tracks of one note, most of which are no parts.
    Tracks,
    /// Tracks as a notation program writes them, most of which are no parts: a name, a program, controllers, a line of
    /// quarters, an end of track.
    Short,
}

/// What is mixed in.
const OTHERS: [Kind; 4] = [Kind::Bends, Kind::Programs, Kind::Metas, Kind::LaterTempos];

type Track = Vec<(u32, u32)>;

impl Kind {
    pub fn name(self) -> String {
        let name = match self {
            Kind::Notes => "notes",
            Kind::Overlaps => "overlapping notes",
            Kind::Controllers => "controllers",
            Kind::Bends => "bends",
            Kind::Programs => "programs",
            Kind::Metas => "metas",
            Kind::Tempos => "tempos",
            Kind::LaterTempos => "tempos in later tracks",
            Kind::Mixed(every) => return format!("mixed, 1 in {every}"),
            Kind::MetasBehind => "one note in each part, metas behind them",
            Kind::Tracks => "65,535 tracks of one note",
            Kind::Short => "380 tracks of 13 notes",
        };
        name.to_string()
    }

    /// Most events: all but what is mixed in.
    fn event(self, index: usize) -> u32 {
        let turn = index / 2;
        let key = |turn: usize| (turn * 7 % 88 + 21) as u8;
        let value = (index % 128) as u8;
        match (self, index % 2) {
            (Kind::Overlaps, 1) => word(8, 0, key(turn.saturating_sub(7)), 0),
            (Kind::Controllers, _) => word(11, 0, 7, value),
            (Kind::Bends, _) => word(14, 0, value, 127 - value),
            (Kind::Programs, _) => word(12, 0, value, 0),
            (Kind::Metas | Kind::MetasBehind, _) => word(0, 0, 0, 0),
            (Kind::Tempos | Kind::LaterTempos, _) => word(2, 7, (index % 256) as u8, 32),
            (_, 0) => word(9, 0, key(turn), 64),
            (_, _) => word(8, 0, key(turn), 0),
        }
    }

    /// So many events of a part.
    fn events(self, part: usize, count: usize) -> Vec<u32> {
        let Kind::Mixed(every) = self else {
            return (0..count).map(|index| self.event(index)).collect();
        };
        let mut random = Random::new(part as u64);
        let mut notes = 0;
        let next = |index| {
            if random.once_in(every) {
                return random.pick(&OTHERS).event(index);
            }
            notes += 1;
            self.event(notes - 1)
        };
        (0..count).map(next).collect()
    }

    /// So many events in so many parts.
    pub fn piece(self, events: usize, parts: usize) -> Piece {
        let tracks = match self {
            Kind::MetasBehind => {
                let metas = (0..events - 2 * parts).map(|index| (1, self.event(index)));
                let behind = metas.collect();
                (0..parts).map(note).chain([behind]).collect()
            }
            Kind::Tracks => (0..events / 2).map(note).collect(),
            Kind::Short => (0..SHORT).map(|_| short(events / SHORT)).collect(),
            _ => self.filled(events, parts),
        };
        Piece::of_tracks(480, &tracks)
    }

    /// Evenly in all parts, but for tempos.
    fn filled(self, events: usize, parts: usize) -> Vec<Track> {
        let first = match self {
            Kind::LaterTempos | Kind::Mixed(_) => vec![vec![(0, Kind::Tempos.event(0))]],
            _ => Vec::new(),
        };
        let left = events - 2 * parts - first.len();
        let count = |part| match self {
            Kind::Tempos if part == 0 => left,
            Kind::Tempos => 0,
            _ => left * (part + 1) / parts - left * part / parts,
        };
        let parts = (0..parts).map(|part| track(&self.events(part, count(part))));
        first.into_iter().chain(parts).collect()
    }
}

/// A part: a note is held throughout, and the events are spread over it.
fn track(events: &[u32]) -> Track {
    let mut track = vec![(0, word(9, 1, 60, 64))];
    let mut reached = 0;
    for (index, &event) in events.iter().enumerate() {
        let tick = TICKS * index as u64 / events.len() as u64;
        track.push(((tick - reached) as u32, event));
        reached = tick;
    }
    track.push(((TICKS - reached) as u32, word(8, 1, 60, 0)));
    track
}

/// A track of one note, a quarter long.
fn note(track: usize) -> Track {
    let [on, off] = [0, 1].map(|index| Kind::Notes.event(2 * track + index));
    vec![(0, on), (480, off)]
}

/// So many short tracks.
const SHORT: usize = 380;

/// A short track of so many events.
fn short(events: usize) -> Track {
    let [name, program] = [Kind::Metas, Kind::Programs].map(|kind| (0, kind.event(0)));
    let controllers = [7, 10, 91].map(|number| (0, word(11, 0, number, 64)));
    let notes = (0..events - 6).map(|index| (480 * (index % 2) as u32, Kind::Notes.event(index)));
    let before = [name, program].into_iter().chain(controllers);
    before.chain(notes).chain([(1, word(6, 0, 0, 0))]).collect()
}

#[cfg(test)]
mod tests {
    use super::*;
    use crate::refusals;

    #[test]
    fn pieces_are_as_large_as_asked() {
        let others = [Kind::Notes, Kind::Overlaps, Kind::Controllers, Kind::Tempos];
        let mixed = [2, 16, 256].map(Kind::Mixed);
        let fixed = [Kind::MetasBehind];
        for kind in [&OTHERS[..], &others, &mixed, &fixed].concat() {
            let piece = kind.piece(1_000, 5);
            assert_eq!(piece.words.len(), 1_000, "{kind:?}");
            assert_eq!(refusals::import(&piece), None, "{kind:?}");
            assert_eq!(refusals::part_count(&piece), 5, "{kind:?}");
        }
    }

    #[test]
    fn most_tracks_are_no_parts() {
        let piece = Kind::Tracks.piece(131_070, 32);
        assert_eq!((piece.sizes[1], piece.words.len()), (65_535, 131_070));
        assert_eq!(refusals::part_count(&piece), 32);
    }

    #[test]
    fn short_tracks_are_alike() {
        let piece = Kind::Short.piece(12_160, 32);
        assert_eq!((piece.sizes[1], piece.words.len()), (380, 12_160));
        assert_eq!(refusals::part_count(&piece), 32);
        assert_eq!(refusals::import(&piece), None);
    }

    #[test]
    fn one_in_so_many_is_no_note() {
        let words = Kind::Mixed(4).events(0, 10_000);
        let others = words.iter().filter(|word| !matches!(*word >> 24, 8 | 9));
        assert!((2_300..2_700).contains(&others.count()));
        let notes: Vec<_> = words
            .iter()
            .filter(|word| matches!(*word >> 24, 8 | 9))
            .collect();
        let line: Vec<_> = (0..notes.len())
            .map(|index| Kind::Notes.event(index))
            .collect();
        assert!(notes.into_iter().eq(&line));
    }
}
