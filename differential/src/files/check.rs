//! The comparison on one file: both entries, with every room.

use super::entries::{Entries, Outputs, PieceSize};
use super::reader;
use crate::checked::{Checked, same};
use crate::lent::Lent;
use crate::piece::Piece;

/// A file that the second reader reads.
pub fn file(asked: &Entries, bytes: &[u8]) -> Checked {
    answer(asked, bytes, &reader::read(bytes))
}

/// The entries answer `wanted`.
pub fn answer(asked: &Entries, bytes: &[u8], wanted: &Result<Piece, u32>) -> Checked {
    let given = Lent::of(bytes);
    match wanted {
        Ok(piece) => taken(asked, &given, piece)?,
        Err(number) => {
            let size = asked.size(&given);
            same("read_size", size, PieceSize::refused(*number))?;
            refused(asked, &given, [0; 3], *number)?;
            refused(asked, &given, [4, 9, 9], *number)?;
        }
    }
    given.holds("bytes given", bytes)
}

fn taken(asked: &Entries, given: &Lent<u8>, piece: &Piece) -> Checked {
    let lists = [&piece.sizes, &piece.deltas, &piece.words];
    let needed = lists.map(Vec::len);
    let size = PieceSize {
        number: 0,
        sizes: needed[0],
        events: needed[1],
    };
    same("read_size", asked.size(given), size)?;
    for spare in [[0, 0, 0], [1, 2, 3], [7, 0, 5]] {
        let rooms = [0, 1, 2].map(|index| needed[index] + spare[index]);
        let mut outputs: Outputs = rooms.map(Lent::new);
        same("read", asked.read(given, &mut outputs), size)?;
        for ((output, list), name) in outputs.iter().zip(lists).zip(NAMES) {
            output.holds(name, list)?;
        }
    }
    for short in 0..3 {
        let mut rooms = needed.map(|room| room + 1);
        rooms[short] = match needed[short].checked_sub(1) {
            Some(room) => room,
            None => continue,
        };
        refused(asked, given, rooms, 8)?;
    }
    refused(asked, given, [0; 3], 8)
}

const NAMES: [&str; 3] = ["sizes", "deltas", "words"];

/// The number alone, and no output has changed.
fn refused(asked: &Entries, given: &Lent<u8>, rooms: [usize; 3], number: u32) -> Checked {
    let mut outputs: Outputs = rooms.map(Lent::new);
    let size = asked.read(given, &mut outputs);
    let what = || format!("read with room for {rooms:?}");
    if size != PieceSize::refused(number) {
        return same(&what(), size, PieceSize::refused(number));
    }
    let mut outputs = outputs.iter().zip(NAMES);
    outputs.try_for_each(|(output, name)| output.untouched(name))
}
