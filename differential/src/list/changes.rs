//! Which changed staffs the list has: for each answer, and for each reason of a no, some of the first that are met.

use super::{Changed, Entry};
use crate::generate::Random;
use crate::mutate::{self, KINDS, Sources};
use crate::packed::{self, Staff};
use crate::proofread;
use crate::reader::reasons::{self, REASONS};
use crate::reader::{self, Answer, Part, Point};
use std::collections::{BTreeMap, BTreeSet};
use std::fmt::{Display, Formatter, Result};

/// So many staffs are to have each thing that is looked for, each of another part.
const WANTED: usize = 5;
/// So many staffs of each part are changed.
const TRIES: usize = 200;
/// Elements of the arrays of a short staff and of a long one. Of a long one no reasons are looked for.
const SHORT: std::ops::Range<usize> = 0..80;
const LONG: std::ops::Range<usize> = 200..500;

/// What is looked for.
#[derive(Debug, Clone, Copy, PartialEq, Eq, PartialOrd, Ord)]
enum Sought {
    /// Yes, after a change of this kind.
    Yes(usize),
    /// Number 9.
    Uneven,
    /// No for this reason, and for no other of its point.
    Reason(&'static str),
    /// No for several reasons of the point of this number.
    Several(usize),
    /// No, and a reader who leaves the point out says yes.
    Alone(usize),
    /// Yes or, by the point's number, no to a long staff.
    Long(Option<usize>),
}

/// How many of the list's changed staffs have what is looked for.
#[derive(Default)]
pub struct Changes {
    counts: BTreeMap<Sought, usize>,
    /// Changed staffs that get yes, and no by the first point that fails.
    yes: usize,
    no: [usize; Point::ALL.len()],
    /// Engraved staffs that get 9, and yes.
    engraved: [usize; 2],
}

impl Changes {
    /// Gives the entries their changed staffs.
    pub(super) fn of(seed: u64, entries: &mut [Entry]) -> Self {
        let mut changes = Self::default();
        let mut another = Staff::default();
        for (index, entry) in (0..).zip(entries) {
            let Ok(import) = &entry.answers.import else {
                continue;
            };
            let staffs = packed::staffs(import);
            let parts = reader::parts(&entry.piece, &packed::bars(&import.bars));
            let mut random = proofread::random(seed, index);
            for (number, part) in parts.iter().enumerate() {
                let sources = Sources {
                    staffs: &staffs,
                    part: number,
                    another: &another,
                };
                changes.add_engraved(reader::read(part, &staffs[number]));
                let changed = changes.of_part(&mut random, &sources, part);
                entry.changed.extend(changed);
            }
            another = staffs.into_iter().next().unwrap_or_default();
        }
        changes
    }

    /// The changed staffs of one part, no two for the same thing.
    fn of_part(&mut self, random: &mut Random, sources: &Sources, part: &Part) -> Vec<Changed> {
        let engraved = &sources.staffs[sources.part];
        let mut taken = Vec::new();
        let mut here = BTreeSet::new();
        if !SHORT.contains(&elements(engraved)) && !LONG.contains(&elements(engraved)) {
            return taken;
        }
        for _ in 0..TRIES {
            let (kind, staff) = mutate::some(random, sources);
            if staff == *engraved || taken.iter().any(|known: &Changed| known.staff == staff) {
                continue;
            }
            let answer = reader::read(part, &staff);
            let has = sought(kind, part, &staff, answer);
            let news = |sought: &Sought| self.count(*sought) < WANTED && !here.contains(sought);
            if !has.iter().any(news) {
                continue;
            }
            self.add(answer, &has);
            here.extend(has);
            let part = sources.part as u32;
            taken.push(Changed {
                part,
                staff,
                answer,
            });
        }
        taken
    }

    fn add_engraved(&mut self, answer: Answer) {
        match answer {
            Answer::Yes => self.engraved[1] += 1,
            Answer::Uneven => self.engraved[0] += 1,
            Answer::No(point) => panic!("an engraved staff gets no: {point:?}"),
        }
    }

    fn add(&mut self, answer: Answer, has: &[Sought]) {
        match answer {
            Answer::Yes => self.yes += 1,
            Answer::No(point) => self.no[point as usize] += 1,
            Answer::Uneven => {}
        }
        for sought in has {
            *self.counts.entry(*sought).or_default() += 1;
        }
    }

    fn count(&self, sought: Sought) -> usize {
        self.counts.get(&sought).copied().unwrap_or(0)
    }

    /// Changed staffs that get yes.
    pub fn yes(&self) -> usize {
        self.yes
    }

    /// Changed staffs of uneven parts.
    pub fn uneven(&self) -> usize {
        self.count(Sought::Uneven)
    }

    /// Each point with the staffs that get no by it: in all, where it fails alone, and those of long staffs.
    pub fn points(&self) -> impl Iterator<Item = (&'static str, [usize; 3])> {
        (0..).zip(REASONS).map(|(index, (_, name, _))| {
            let alone = self.count(Sought::Alone(index));
            let long = self.count(Sought::Long(Some(index)));
            (name, [self.no[index], alone, long])
        })
    }

    /// Each reason with the staffs that get no for it and for no other of its point.
    pub fn reasons(&self) -> impl Iterator<Item = (&'static str, usize)> {
        let names = REASONS.iter().flat_map(|(_, _, names)| names.iter());
        names.map(|name| (*name, self.count(Sought::Reason(name))))
    }
}

fn elements(staff: &Staff) -> usize {
    staff.counts.len() + staff.heads.len() + staff.keys.len()
}

/// What a changed staff has of what is looked for.
fn sought(kind: usize, part: &Part, staff: &Staff, answer: Answer) -> Vec<Sought> {
    let long = LONG.contains(&elements(staff));
    let point = match answer {
        Answer::Yes if long => return vec![Sought::Long(None)],
        Answer::Yes => return vec![Sought::Yes(kind)],
        Answer::Uneven => return vec![Sought::Uneven],
        Answer::No(point) => point,
    };
    let number = point as usize;
    let first = match reasons::of(part, staff, point)[..] {
        _ if long => Sought::Long(Some(number)),
        [reason] => Sought::Reason(reason),
        _ => Sought::Several(number),
    };
    let alone = reader::alone(part, staff, point).then_some(Sought::Alone(number));
    [first].into_iter().chain(alone).collect()
}

impl Display for Changes {
    fn fmt(&self, out: &mut Formatter) -> Result {
        let [uneven, even] = self.engraved;
        writeln!(out, "engraved staffs: yes {even}, uneven {uneven}")?;
        let uneven = self.uneven();
        let no: usize = self.no.iter().sum();
        let yes = self.yes;
        writeln!(out, "changed staffs: yes {yes}, no {no}, uneven {uneven}")?;
        writeln!(out, "yes after a change of")?;
        for (index, kind) in KINDS.iter().enumerate() {
            match self.count(Sought::Yes(index)) {
                0 => {}
                count => writeln!(out, "  {}: {count}", kind.name)?,
            }
        }
        let long = self.count(Sought::Long(None));
        writeln!(out, "  long staffs: {long}")?;
        writeln!(out, "no by the first point that fails")?;
        for (index, (name, [all, alone, long])) in self.points().enumerate() {
            writeln!(out, "  {name}: {all}, alone {alone}, long staffs {long}")?;
            for reason in REASONS[index].2 {
                let count = self.count(Sought::Reason(reason));
                writeln!(out, "    {reason}: {count}")?;
            }
            let several = self.count(Sought::Several(index));
            writeln!(out, "    several of these: {several}")?;
        }
        Ok(())
    }
}
