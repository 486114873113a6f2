//! Proof-reading in the list: the staffs that are given, and the plain proof-reader's answers.

use super::asked::{Asked, Call, wide};
use super::{Changed, Entry};
use crate::packed::{self, Staff};
use crate::reader::{self, Answer};
use crate::refusals;

const PROOF_READ: Call = Call("proof read", 11, ["keys", "", "counts", "heads", ""]);

/// A work area that is too short for any piece.
const LITTLE: usize = 5;

/// The engraved staff of each part, the changed ones, and a part that is not there; of a piece that is turned back its
/// number. Where `narrow`, each staff also with exactly enough work area, and with one word too few.
pub fn of(entry: &Entry, narrow: bool) -> Vec<Asked> {
    let import = match &entry.answers.import {
        Ok(import) => import,
        Err(number) => return vec![refused(0, *number)],
    };
    let parts = reader::parts(&entry.piece, &packed::bars(&import.bars));
    let staffs = packed::staffs(import);
    let work = refusals::work(&entry.piece);
    let mut list = Vec::new();
    for (part, staff) in (0..).zip(&staffs) {
        let answer = reader::read(&parts[part as usize], staff);
        list.extend(reading(part, staff, answer, work, narrow));
        let changed = entry.changed.iter().filter(|changed| changed.part == part);
        for Changed { staff, answer, .. } in changed {
            list.extend(reading(part, staff, *answer, work, narrow));
        }
    }
    list.push(refused(parts.len() as u32, 7));
    list
}

fn reading(part: u32, staff: &Staff, answer: Answer, work: usize, narrow: bool) -> Vec<Asked> {
    let said = match answer.numbers() {
        [0, right] => vec![0, right.into()],
        [number, _] => vec![number.into()],
    };
    let mut list = vec![given(part, staff, work + 3, said.clone())];
    if narrow {
        list.push(given(part, staff, work, said));
        list.push(given(part, staff, work - 1, vec![8]));
    }
    list
}

/// The number comes whatever the staff, which has no elements, and the work area.
fn refused(part: u32, number: u8) -> Asked {
    given(part, &Staff::default(), LITTLE, vec![number.into()])
}

/// The arrays of a staff have no room besides what they are given as.
fn given(part: u32, staff: &Staff, work: usize, answer: Vec<u64>) -> Asked {
    let Staff {
        counts,
        heads,
        keys,
    } = staff.clone();
    Asked {
        call: PROOF_READ,
        part,
        room: [keys.len(), 0, counts.len(), heads.len(), 0, work],
        answer,
        lists: [keys, vec![], wide(counts), wide(heads), vec![]],
    }
}
