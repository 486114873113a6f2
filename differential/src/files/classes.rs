//! Files from a seed, by class. The same seed and number give the same file on every machine.

use super::broken::{self, BREAKS, Break, HEADER_BREAKS};
use super::draft::Draft;
use super::facts::Facts;
use super::scrambled::{SCRAMBLES, Scramble};
use super::sound;
use crate::generate::Random;
use crate::piece::Piece;
use std::sync::LazyLock;

/// What a file must be read as, by the way it was made.
#[derive(Debug, Clone, PartialEq, Eq)]
pub enum Plan {
    Read(Piece),
    Refused(u32),
    Open,
}

pub struct Made {
    pub class: usize,
    pub bytes: Vec<u8>,
    pub plan: Plan,
    pub facts: Facts,
}

pub struct Class {
    pub name: &'static str,
    weight: u64,
    make: Make,
}

#[derive(Clone, Copy)]
enum Make {
    Sound(Sound),
    Broken(Break, u32),
    Scrambled(Scramble),
}

type Sound = fn(&mut Random) -> Draft;

const SOUND: [(&str, u64, Sound); 6] = [
    ("format 0", 60, sound::format_0),
    ("format 1", 60, sound::format_1),
    ("format 1 without tracks", 10, sound::no_tracks),
    ("many tracks", 1, sound::many_tracks),
    ("long tracks", 1, sound::long_tracks),
    ("generated pieces", 2, sound::music),
];

/// Refused by another number than 12, or by 12 with more wrong.
const NUMBERED: [(&str, Break, u32); 5] = [
    ("format above 1", broken::format_above_1, 13),
    ("division 0", broken::division_0, 2),
    ("meter's power above 7", broken::bad_power, 5),
    ("key's minor above 1", broken::bad_minor, 5),
    (
        "broken, with a bad word or division",
        broken::broken_and_bad,
        12,
    ),
];

pub static CLASSES: LazyLock<Vec<Class>> = LazyLock::new(|| {
    let sound = SOUND.map(|(name, weight, make)| (name, weight, Make::Sound(make)));
    let numbered = NUMBERED.map(|(name, make, number)| (name, 10, Make::Broken(make, number)));
    let breaks = HEADER_BREAKS.into_iter().chain(BREAKS);
    let breaks = breaks.map(|(name, make)| (name, 8, Make::Broken(make, 12)));
    let scrambles = SCRAMBLES.map(|(name, make)| (name, 30, Make::Scrambled(make)));
    let all = sound
        .into_iter()
        .chain(numbered)
        .chain(breaks)
        .chain(scrambles);
    all.map(|(name, weight, make)| Class { name, weight, make })
        .collect()
});

/// File number `index` of a seed.
pub fn numbered(seed: u64, index: u64) -> Made {
    let mut seeds = Random::new(seed ^ index.wrapping_mul(0xd134_2543_de82_ef95));
    let mut random = Random::new(seeds.number());
    let mut at = random.below(*WEIGHTS);
    let class = CLASSES.iter().position(|class| {
        let here = at < class.weight;
        at = at.wrapping_sub(class.weight);
        here
    });
    of_class(class.expect("some class"), &mut random)
}

static WEIGHTS: LazyLock<u64> = LazyLock::new(|| CLASSES.iter().map(|class| class.weight).sum());

pub fn of_class(class: usize, random: &mut Random) -> Made {
    let draft = match CLASSES[class].make {
        Make::Sound(make) => make(random),
        _ => sound::any(random),
    };
    let facts = draft.facts;
    let (bytes, plan) = match CLASSES[class].make {
        Make::Sound(_) => (draft.bytes(), Plan::Read(draft.piece())),
        Make::Broken(make, number) => (make(random, draft), Plan::Refused(number)),
        Make::Scrambled(make) => (make(random, draft), Plan::Open),
    };
    Made {
        class,
        bytes,
        plan,
        facts,
    }
}
