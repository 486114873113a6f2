//! The calls that the list asks of a piece or a file, with the room lent to each and the answer: the reference's, or the
//! second reader's. Proof-reading is in `readings`.

use super::Entry;
use crate::answers::{Import, Part};
use crate::piece::Piece;
use crate::{packed, refusals};

/// How many arrays a call may be lent besides the work area.
pub const ARRAYS: usize = 5;

/// The room of two arrays of u64, three of u32, and the work area.
pub type Room = [usize; ARRAYS + 1];
pub type Lists = [Vec<u64>; ARRAYS];

/// A call, the part that it asks for, and the room of its arrays.
pub struct Asked {
    pub call: Call,
    pub part: u32,
    pub room: Room,
    /// The refusal's number, or 0 and the values.
    pub answer: Vec<u64>,
    /// What the arrays are to begin with; of proof-reading what they are given as.
    pub lists: Lists,
}

/// A call's name, its number, and the names of its lists, empty where it has none.
#[derive(Clone, Copy)]
pub struct Call(pub &'static str, pub u32, pub [&'static str; ARRAYS]);

const NONE: [&str; ARRAYS] = [""; ARRAYS];
const HEAD: Call = Call("head", 1, NONE);
const PART_COUNT: Call = Call("part count", 2, NONE);
const PART_HEAD: Call = Call("part head", 3, NONE);
const BARS: Call = Call("bars", 4, ["starts", "marks", "", "", ""]);
const STAFF_SIZE: Call = Call("staff size", 5, NONE);
const ENGRAVE: Call = Call("engrave", 6, ["keys", "", "counts", "heads", "leftovers"]);
const AUTOMATION: Call = Call("automation", 7, ["ticks", "", "words", "", ""]);
const DIAGNOSTICS: Call = Call("diagnostics", 8, ["places", "details", "", "", ""]);
const READ_SIZE: Call = Call("read size", 9, NONE);
const READ: Call = Call("read", 10, ["", "", "sizes", "deltas", "words"]);

/// What is asked of a piece. Where `narrow`, also with exactly enough room, and with one element too few in each array.
pub fn of(entry: &Entry, narrow: bool) -> Vec<Asked> {
    let admitted = refusals::admission(&entry.piece).is_none();
    let work = if admitted {
        refusals::work(&entry.piece)
    } else {
        9
    };
    let mut asks = Asks {
        list: Vec::new(),
        work,
        narrow,
    };
    match &entry.answers.import {
        Ok(import) => asks.import(import),
        Err(number) => asks.refused(*number),
    }
    match &entry.answers.diagnostics {
        Ok(list) => {
            let packed::Diagnostics { places, details } = packed::diagnostics(list);
            let answer = vec![0, places.len() as u64];
            let lists = [places, details, vec![], vec![], vec![]];
            asks.add(DIAGNOSTICS, 0, answer, lists);
        }
        Err(number) => asks.refusal(DIAGNOSTICS, 0, *number),
    }
    asks.list
}

/// The same of a file: its size, and its piece.
pub fn of_file(answer: &Result<Piece, u32>, narrow: bool) -> Vec<Asked> {
    let mut asks = Asks {
        list: Vec::new(),
        work: 0,
        narrow,
    };
    match answer {
        Ok(piece) => {
            let Piece {
                sizes,
                deltas,
                words,
            } = piece.clone();
            let answer = vec![0, sizes.len() as u64, deltas.len() as u64];
            asks.plain(READ_SIZE, 0, answer.clone());
            let lists = [vec![], vec![], wide(sizes), wide(deltas), wide(words)];
            asks.add(READ, 0, answer, lists);
        }
        Err(number) => {
            asks.refusal(READ_SIZE, 0, *number);
            asks.refusal(READ, 0, *number);
        }
    }
    asks.list
}

struct Asks {
    list: Vec<Asked>,
    work: usize,
    narrow: bool,
}

impl Asks {
    fn import(&mut self, import: &Import) {
        let head = &import.head;
        let key = head.key.map_or([0, 0], |key| {
            [(i64::from(key.fifths) + 8) as u64, u64::from(key.minor)]
        });
        let (tempo, upper, lower) = (head.tempo.into(), head.upper.into(), head.lower.into());
        self.plain(HEAD, 0, vec![0, tempo, upper, lower, key[0], key[1]]);
        let parts = import.parts.len() as u32;
        self.plain(PART_COUNT, 0, vec![0, parts.into()]);
        let packed::Bars { starts, marks } = packed::bars(&import.bars);
        let answer = vec![0, starts.len() as u64];
        self.add(BARS, 0, answer, [starts, marks, vec![], vec![], vec![]]);
        for (number, part) in (0..).zip(&import.parts) {
            self.part(number, part);
        }
        self.no_part(parts, 7);
        self.plain(PART_HEAD, u32::MAX, vec![7]);
    }

    fn part(&mut self, number: u32, part: &Part) {
        let head = vec![0, part.channel.into(), part.program.into()];
        self.plain(PART_HEAD, number, head);
        let packed::Staff {
            counts,
            heads,
            keys,
        } = packed::staff(&part.staff);
        let size = vec![0, counts.len() as u64 / 4, heads.len() as u64];
        self.add(STAFF_SIZE, number, size.clone(), Default::default());
        let leftovers = packed::leftovers(&part.leftovers);
        let lists = [keys, vec![], wide(counts), wide(heads), wide(leftovers)];
        self.add(ENGRAVE, number, size, lists);
        let packed::Automation {
            counts,
            ticks,
            words,
        } = packed::automation(&part.automation);
        let answer = [0].into_iter().chain(counts).map(u64::from).collect();
        let lists = [ticks, vec![], wide(words), vec![], vec![]];
        self.add(AUTOMATION, number, answer, lists);
    }

    /// Every call but the diagnostics, refused.
    fn refused(&mut self, number: u8) {
        self.refusal(HEAD, 0, number);
        self.refusal(PART_COUNT, 0, number);
        self.refusal(BARS, 0, number);
        self.no_part(0, number);
    }

    /// The calls for one part, refused.
    fn no_part(&mut self, part: u32, number: u8) {
        for call in [PART_HEAD, STAFF_SIZE, ENGRAVE, AUTOMATION] {
            self.refusal(call, part, number);
        }
    }

    fn plain(&mut self, call: Call, part: u32, answer: Vec<u64>) {
        let room = Room::default();
        let lists = Default::default();
        self.list.push(Asked {
            call,
            part,
            room,
            answer,
            lists,
        });
    }

    /// A refusal, which comes whatever the room: some of each array.
    fn refusal(&mut self, call: Call, part: u32, number: impl Into<u64>) {
        let mut room = room(&call, &Default::default(), 2);
        if has_work(&call) {
            room[ARRAYS] = 5;
        }
        self.list.push(Asked {
            call,
            part,
            room,
            answer: vec![number.into()],
            lists: Default::default(),
        });
    }

    /// An answered call, with room to spare; where `narrow`, in every way.
    fn add(&mut self, call: Call, part: u32, answer: Vec<u64>, lists: Lists) {
        let mut ask = |room, answer: &Vec<u64>, lists: &Lists| {
            self.list.push(Asked {
                call,
                part,
                room,
                answer: answer.clone(),
                lists: lists.clone(),
            })
        };
        let work = if has_work(&call) { self.work } else { 0 };
        let with_work = |spare, more| {
            let mut room = room(&call, &lists, spare);
            room[ARRAYS] = work + more;
            room
        };
        let more = if work > 0 { 3 } else { 0 };
        ask(with_work(2, more), &answer, &lists);
        if !self.narrow {
            return;
        }
        let exact = with_work(0, 0);
        ask(exact, &answer, &lists);
        for index in (0..=ARRAYS).filter(|&index| exact[index] > 0) {
            let mut few = exact;
            few[index] -= 1;
            ask(few, &vec![8], &Default::default());
        }
    }
}

fn has_work(call: &Call) -> bool {
    matches!(call.1, 5 | 6 | 8)
}

/// Room for the lists of a call, and so much more in each.
fn room(call: &Call, lists: &Lists, spare: usize) -> Room {
    let mut room = Room::default();
    for ((room, name), list) in room.iter_mut().zip(call.2).zip(lists) {
        if !name.is_empty() {
            *room = list.len() + spare;
        }
    }
    room
}

pub fn wide(list: Vec<u32>) -> Vec<u64> {
    list.into_iter().map(u64::from).collect()
}
