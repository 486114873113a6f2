//! A stored list of the reference's answers, and a second reader's on files: pieces and files chosen for what they reach,
//! and the calls asked of each. `text` has the form; docs/REPLAY.md describes it.

mod asked;
mod calls;
mod changes;
mod choice;
mod readings;
mod text;

use crate::answers::Answers;
use crate::coverage::Report;
use crate::examples::EXAMPLES;
use crate::files::{self, tally::Tally};
use crate::packed::Staff;
use crate::piece::Piece;
use crate::reader::Answer;
use crate::{generate, reference};
pub use calls::Calls;
pub use changes::Changes;
use choice::Choice;
use std::fmt::{Display, Formatter, Result};

/// What a list has: its pieces, the changed staffs that are given to proof-read, its generated files, and its calls.
pub struct Coverage {
    pub pieces: Report,
    pub changes: Changes,
    pub files: Tally,
    pub calls: Calls,
}

/// The list of a seed and what it has. Pieces and files are chosen from the first `count` of each.
pub fn of_seed(seed: u64, count: u64) -> (String, Coverage) {
    let examples = EXAMPLES.iter().map(|example| answered(example.piece()));
    let mut entries: Vec<_> = examples.collect();
    let generated = (0..count).map(|index| answered(generate::numbered(seed, index)));
    entries.extend(Choice::of(generated.collect()));
    entries.push(too_many_events());
    let changes = Changes::of(seed, &mut entries);
    let mut pieces = Report::default();
    for entry in &entries {
        pieces.add(&entry.piece, &entry.answers);
    }
    let (chosen, files) = files::list::of_seed(seed, count);
    let (text, calls) = text::list(&entries, &chosen);
    let coverage = Coverage {
        pieces,
        changes,
        files,
        calls,
    };
    (text, coverage)
}

impl Display for Coverage {
    fn fmt(&self, out: &mut Formatter) -> Result {
        let Self {
            pieces,
            changes,
            files,
            calls,
        } = self;
        write!(out, "{pieces}{changes}{files}{calls}")
    }
}

/// A piece, the reference's answers to it, and changed staffs of its parts.
struct Entry {
    piece: Piece,
    answers: Answers,
    changed: Vec<Changed>,
}

/// A changed staff of a part, with the plain proof-reader's answer.
struct Changed {
    part: u32,
    staff: Staff,
    answer: Answer,
}

fn answered(piece: Piece) -> Entry {
    Entry {
        answers: reference::answers(&piece),
        piece,
        changed: Vec::new(),
    }
}

/// Number 3: one event above the most. All its events are of delta 0 and word 0, so that the text need not name them.
fn too_many_events() -> Entry {
    answered(Piece::of_tracks(480, &[vec![(0, 0); 500_001]]))
}
