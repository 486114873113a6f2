//! The library's entries in one form: rooms in, an outcome out.

use crate::library::{self, Cell, Given, GivenStaff, Lent};

#[derive(Debug, Clone, Copy, PartialEq, Eq)]
pub enum Call {
    Head,
    PartCount,
    PartHead,
    Bars,
    StaffSize,
    Engrave,
    ProofRead,
    Automation,
    Diagnostics,
}

/// The lengths lent: outputs in the entry's order, then the work area.
#[derive(Debug, Clone, Default, PartialEq, Eq)]
pub struct Rooms {
    pub outputs: Vec<usize>,
    pub work: usize,
}

impl Rooms {
    fn lent<T: Cell>(&self, index: usize) -> Lent<T> {
        Lent::new(self.outputs[index])
    }
}

pub enum Output {
    Words(Lent<u32>),
    Longs(Lent<u64>),
}

/// What a call left behind. A call without a work area has one of no elements.
pub struct Outcome {
    pub number: u32,
    /// The answer's other fields.
    pub fields: Vec<u64>,
    pub outputs: Vec<Output>,
    pub work: Lent<u64>,
}

impl Call {
    pub const ALL: [Self; 9] = [
        Self::Head,
        Self::PartCount,
        Self::PartHead,
        Self::Bars,
        Self::StaffSize,
        Self::Engrave,
        Self::ProofRead,
        Self::Automation,
        Self::Diagnostics,
    ];

    /// The refusals that the call may give.
    pub fn numbers(self) -> &'static [u32] {
        match self {
            Self::Head | Self::PartCount => &[1, 2, 3, 4, 5, 6],
            Self::PartHead => &[1, 2, 3, 4, 5, 6, 7],
            Self::Bars => &[1, 2, 3, 4, 5, 6, 8],
            Self::StaffSize | Self::Engrave | Self::Automation => &[1, 2, 3, 4, 5, 6, 7, 8],
            Self::ProofRead => &[1, 2, 3, 4, 5, 6, 7, 8, 9],
            Self::Diagnostics => &[1, 2, 3, 4, 5, 8],
        }
    }

    pub fn outputs(self) -> usize {
        match self {
            Self::Head | Self::PartCount | Self::PartHead => 0,
            Self::StaffSize | Self::ProofRead => 0,
            Self::Bars | Self::Automation | Self::Diagnostics => 2,
            Self::Engrave => 4,
        }
    }

    pub fn works(self) -> bool {
        match self {
            Self::StaffSize | Self::Engrave | Self::ProofRead | Self::Diagnostics => true,
            Self::Head | Self::PartCount | Self::PartHead | Self::Bars | Self::Automation => false,
        }
    }

    /// The elements of each output that an answer with these fields writes.
    pub fn lengths(self, fields: &[u64]) -> Vec<usize> {
        let times = |field: u64, factor| (field as usize).saturating_mul(factor);
        match self {
            Self::Head | Self::PartCount | Self::PartHead => vec![],
            Self::StaffSize | Self::ProofRead => vec![],
            Self::Bars | Self::Diagnostics => vec![times(fields[0], 1); 2],
            Self::Engrave => {
                let (bars, items) = (fields[0], fields[1]);
                let (four, two) = (times(bars, 4), times(items, 2));
                vec![four, times(items, 1), two, four]
            }
            Self::Automation => {
                let sum = fields.iter().fold(0, |sum: u64, n| sum.saturating_add(*n));
                vec![times(sum, 1); 2]
            }
        }
    }

    /// Asks about a piece's part; only the proof-reader is given the staff.
    pub fn ask(self, given: &Given, part: u32, staff: &GivenStaff, rooms: &Rooms) -> Outcome {
        let mut work = Lent::new(if self.works() { rooms.work } else { 0 });
        let (number, fields, outputs) = match self {
            Self::Head => head(given),
            Self::PartCount => counted(library::part_count(given), vec![]),
            Self::PartHead => part_head(given, part),
            Self::Bars => bars(given, rooms),
            Self::StaffSize => sized(library::staff_size(given, part, &mut work), vec![]),
            Self::Engrave => engrave(given, part, rooms, &mut work),
            Self::ProofRead => proof_read(given, part, staff, &mut work),
            Self::Automation => automation(given, part, rooms),
            Self::Diagnostics => diagnostics(given, rooms, &mut work),
        };
        Outcome {
            number,
            fields,
            outputs,
            work,
        }
    }
}

type Answered = (u32, Vec<u64>, Vec<Output>);

fn head(given: &Given) -> Answered {
    let head = library::head(given);
    let (key, fifths) = (head.has_key, head.fifths as u32);
    let fields = [head.tempo, head.upper, head.lower, key, fifths, head.minor];
    (head.number, fields.map(u64::from).to_vec(), vec![])
}

fn part_head(given: &Given, part: u32) -> Answered {
    let head = library::part_head(given, part);
    let fields = [head.channel, head.program].map(u64::from);
    (head.number, fields.to_vec(), vec![])
}

fn bars(given: &Given, rooms: &Rooms) -> Answered {
    let (mut starts, mut marks) = (rooms.lent(0), rooms.lent(1));
    let answer = library::bars(given, &mut starts, &mut marks);
    counted(answer, vec![Output::Longs(starts), Output::Longs(marks)])
}

fn engrave(given: &Given, part: u32, rooms: &Rooms, work: &mut Lent<u64>) -> Answered {
    let (mut counts, mut heads, mut keys) = (rooms.lent(0), rooms.lent(1), rooms.lent(2));
    let mut leftovers = rooms.lent(3);
    let (c, h, k, l) = (&mut counts, &mut heads, &mut keys, &mut leftovers);
    let answer = library::engrave(given, part, c, h, k, l, work);
    let outputs = vec![
        Output::Words(counts),
        Output::Words(heads),
        Output::Longs(keys),
        Output::Words(leftovers),
    ];
    sized(answer, outputs)
}

fn proof_read(given: &Given, part: u32, staff: &GivenStaff, work: &mut Lent<u64>) -> Answered {
    let reading = library::proof_read(given, part, staff, work);
    (reading.number, vec![reading.right.into()], vec![])
}

fn automation(given: &Given, part: u32, rooms: &Rooms) -> Answered {
    let (mut ticks, mut list) = (rooms.lent(0), rooms.lent(1));
    let answer = library::automation(given, part, &mut ticks, &mut list);
    let fields = answer.counts.map(|count| count as u64).to_vec();
    let outputs = vec![Output::Longs(ticks), Output::Words(list)];
    (answer.number, fields, outputs)
}

fn diagnostics(given: &Given, rooms: &Rooms, work: &mut Lent<u64>) -> Answered {
    let (mut places, mut details) = (rooms.lent(0), rooms.lent(1));
    let answer = library::diagnostics(given, &mut places, &mut details, work);
    counted(answer, vec![Output::Longs(places), Output::Longs(details)])
}

fn counted(answer: library::Count, outputs: Vec<Output>) -> Answered {
    (answer.number, vec![answer.count.into()], outputs)
}

fn sized(answer: library::StaffSize, outputs: Vec<Output>) -> Answered {
    let fields = vec![answer.bars as u64, answer.items as u64];
    (answer.number, fields, outputs)
}
