//! One piece and one part number, and every call with them.

use super::call::{Call, Outcome, Rooms};
use super::tally::Tally;
use super::{check, rooms, staffs};
use crate::checked::{Checked, same};
use crate::generate::Random;
use crate::library::{Given, GivenStaff};
use crate::packed::Staff;
use crate::piece::Piece;
use crate::reader::Answer;
use crate::refusals;

const MOST_BARS: usize = 10_000;

pub struct Case {
    piece: Piece,
    given: Given,
    part: u32,
    /// What the proof-reader is given, and what the plain one says of it, if the part is there.
    staff: Staff,
    given_staff: GivenStaff,
    answer: Option<Answer>,
    /// 1 to 5; 1 to 6; 1 to 7.
    admission: Option<u8>,
    import: Option<u8>,
    of_part: Option<u8>,
    /// What a work area needs; of a piece that is not admitted, the least that one may need.
    work: usize,
}

impl Case {
    pub fn new(piece: Piece, random: &mut Random) -> Self {
        let admission = refusals::admission(&piece);
        let (parts, work) = match admission {
            None => (refusals::part_count(&piece), refusals::work(&piece)),
            Some(_) => (0, refusals::work(&Piece::of_tracks(1, &[]))),
        };
        let part = rooms::part(random, parts as u32);
        let (staff, answer) = staffs::some(random, &piece, part);
        Self {
            given: Given::of(&piece),
            part,
            given_staff: GivenStaff::of(&staff),
            staff,
            answer,
            admission,
            import: refusals::import(&piece),
            of_part: refusals::part(&piece, part),
            work,
            piece,
        }
    }

    /// All calls: with more than enough room where only 8 could refuse, then with some rooms.
    pub fn run(&self, random: &mut Random, tally: &mut Tally) -> Checked {
        for call in Call::ALL {
            let lends = call.works() || call.outputs() > 0;
            let refusal = self.refusal(call);
            let fields = match refusal {
                None => {
                    let ample = self.ample(call);
                    Some(self.call(call, &ample, self.behind(call), tally)?.fields)
                }
                Some(number) if !lends => {
                    self.call(call, &Rooms::default(), number, tally)?;
                    None
                }
                Some(_) => None,
            };
            if !lends {
                continue;
            }
            let needed = Rooms {
                outputs: match &fields {
                    Some(fields) => call.lengths(fields),
                    None => vec![3; call.outputs()],
                },
                work: self.work,
            };
            let rooms = rooms::some(random, &needed);
            let wanted = refusal.unwrap_or(match short(call, &rooms, &needed) {
                true => 8,
                false => self.behind(call),
            });
            let outcome = self.call(call, &rooms, wanted, tally)?;
            if let (0, Some(fields)) = (wanted, fields) {
                let again = same("fields, asked again", outcome.fields, fields);
                again.map_err(|what| self.failed(call, &rooms, what))?;
            }
        }
        Ok(())
    }

    /// The number before 8, if there is one.
    fn refusal(&self, call: Call) -> Option<u32> {
        let number = match call {
            Call::Head | Call::PartCount | Call::Bars => self.import,
            Call::PartHead | Call::StaffSize | Call::Engrave => self.of_part,
            Call::ProofRead | Call::Automation => self.of_part,
            Call::Diagnostics => self.admission,
        };
        number.map(u32::from)
    }

    /// The number with enough room and no refusal before: 0, or 9.
    fn behind(&self, call: Call) -> u32 {
        match (call, self.answer) {
            (Call::ProofRead, Some(answer)) => answer.numbers()[0],
            _ => 0,
        }
    }

    /// Rooms that are enough for certain, of a piece and a part that are there.
    fn ample(&self, call: Call) -> Rooms {
        let events = self.piece.words.len();
        let work = self.work;
        let outputs = match call {
            Call::Head | Call::PartCount | Call::PartHead => vec![],
            Call::StaffSize | Call::ProofRead => vec![],
            Call::Bars => vec![MOST_BARS; 2],
            Call::Automation => vec![events; 2],
            Call::Diagnostics => vec![events + 1; 2],
            Call::Engrave => {
                let outputs = vec![];
                let size = self.ask(Call::StaffSize, &Rooms { outputs, work });
                let mut lengths = call.lengths(&size.fields);
                lengths.iter_mut().for_each(|length| *length += 7);
                lengths
            }
        };
        Rooms { outputs, work }
    }

    fn call(
        &self,
        call: Call,
        rooms: &Rooms,
        wanted: u32,
        tally: &mut Tally,
    ) -> Result<Outcome, String> {
        let outcome = self.ask(call, rooms);
        check::outcome(call, &outcome)
            .and_then(|()| same("number", outcome.number, wanted))
            .and_then(|()| self.read(call, &outcome))
            .and_then(|()| self.given.holds(&self.piece))
            .and_then(|()| self.given_staff.holds(&self.staff))
            .map_err(|what| self.failed(call, rooms, what))?;
        tally.add(call, &outcome);
        Ok(outcome)
    }

    fn ask(&self, call: Call, rooms: &Rooms) -> Outcome {
        call.ask(&self.given, self.part, &self.given_staff, rooms)
    }

    /// Beside number 0 the proof-reader says what the plain one does.
    fn read(&self, call: Call, outcome: &Outcome) -> Checked {
        match (call, outcome.number, self.answer) {
            (Call::ProofRead, 0, Some(answer)) => {
                same("yes or no", outcome.fields[0], answer.numbers()[1].into())
            }
            _ => Ok(()),
        }
    }

    fn failed(&self, call: Call, rooms: &Rooms, what: String) -> String {
        let Rooms { outputs, work } = rooms;
        let (piece, part) = (self.piece.print(), self.part);
        let staff = match call {
            Call::ProofRead => format!("\n{}", self.staff.print()),
            _ => String::new(),
        };
        format!("{call:?}: {what}\n{piece}part {part}\noutputs {outputs:?}, work {work}{staff}")
    }
}

fn short(call: Call, rooms: &Rooms, needed: &Rooms) -> bool {
    let mut outputs = rooms.outputs.iter().zip(&needed.outputs);
    call.works() && rooms.work < needed.work || outputs.any(|(room, needed)| room < needed)
}
