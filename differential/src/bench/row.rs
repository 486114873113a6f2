//! A row of the table of imports.

use super::import::Import;
use crate::clock::timed;
use crate::piece::Piece;
use crate::reference::times;
use crate::refusals;

/// The reference's import of some tempos takes long: what takes so many milliseconds is not run again.
const ONCE: f64 = 1_000.0;

/// How often the two are run: so many times at least, and short ones until all took so many milliseconds together.
pub struct Rounds {
    pub least: usize,
    pub going_on: f64,
}

/// Shortest times, in milliseconds.
#[derive(Clone, Copy)]
pub struct Times {
    pub library: f64,
    pub reference: f64,
    /// The library where it is asked every staff's size first.
    pub sized: f64,
}

impl Times {
    const MOST_ROUNDS: usize = 100;

    /// Of whole imports, by turns.
    fn of(piece: &Piece, rounds: &Rounds) -> Self {
        let mut import = Import::of(piece);
        let mut shortest = [f64::INFINITY; 3];
        let (mut done, mut spent) = (0, 0.0);
        while done < rounds.least || done < Self::MOST_ROUNDS && spent < rounds.going_on {
            let again = done == 0 || shortest[1] < ONCE;
            let round = [
                timed(|| import.all(false)).0,
                if again {
                    times::import(piece)
                } else {
                    shortest[1]
                },
                timed(|| import.all(true)).0,
            ];
            shortest = [0, 1, 2].map(|which| shortest[which].min(round[which]));
            spent += round.iter().sum::<f64>();
            done += 1;
        }
        let [library, reference, sized] = shortest;
        Self {
            library,
            reference,
            sized,
        }
    }
}

pub struct Row {
    pub name: String,
    pub parts: usize,
    pub events: usize,
    pub times: Times,
}

impl Row {
    pub fn of(name: String, piece: &Piece, rounds: &Rounds) -> Self {
        Self {
            name,
            parts: refusals::part_count(piece),
            events: piece.words.len(),
            times: Times::of(piece, rounds),
        }
    }

    /// The sum of some rows.
    pub fn together(name: String, rows: &[Row]) -> Self {
        let sum = |time: fn(&Times) -> f64| rows.iter().map(|row| time(&row.times)).sum();
        Self {
            name,
            parts: rows.iter().map(|row| row.parts).sum(),
            events: rows.iter().map(|row| row.events).sum(),
            times: Times {
                library: sum(|times| times.library),
                reference: sum(|times| times.reference),
                sized: sum(|times| times.sized),
            },
        }
    }

    /// Library over reference, without and with sizes.
    pub fn ratios(&self) -> [f64; 2] {
        [self.times.library, self.times.sized].map(|time| time / self.times.reference)
    }

    pub fn print_titles() {
        print!("{:46} {:>5} {:>8}", "piece", "parts", "events");
        print!(" {:>11} {:>11} {:>8}", "library", "reference", "ratio");
        println!(" {:>11} {:>8} {:>8}", "with sizes", "ratio", "ns/event");
    }

    pub fn print(&self) {
        let Times {
            library,
            reference,
            sized,
        } = self.times;
        let [ratio, sized_ratio] = self.ratios();
        let each = library * 1e6 / self.events as f64;
        print!("{:46} {:>5} {:>8}", self.name, self.parts, self.events);
        print!(" {library:>11.3} {reference:>11.3} {ratio:>8.3}");
        println!(" {sized:>11.3} {sized_ratio:>8.3} {each:>8.1}");
    }
}
