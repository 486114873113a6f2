//! Which files the list has: the shortest that reach what is looked for.

use super::classes::{self, CLASSES, Made, Plan};
use super::facts::Fact;
use super::tally::NUMBERS;
use super::{Tally, WORKED, reader};
use crate::piece::Piece;

/// How many files are to have each class, number, fact and number behind a number.
const WANTED: usize = 5;
/// So many files besides, the first whose lengths are these.
const ORDINARY: usize = 40;
const ORDINARY_LENGTHS: std::ops::Range<usize> = 200..1_000;
/// The most bytes of a file in the program `replay`.
const MOST_BYTES: usize = 8_192;
/// A number that the header alone gives, and what mends it: from which byte on, and the bytes.
const MENDED: [(u32, usize, [u8; 2]); 2] = [(13, 8, [0, 1]), (2, 12, [1, 224])];

type Answer = Result<Piece, u32>;

/// A file's bytes and the second reader's answer.
pub type File = (Vec<u8>, Answer);

/// The list's files, chosen from the first `count` of a seed behind the worked ones, and what the chosen ones have.
pub fn of_seed(seed: u64, count: u64) -> (Vec<File>, Tally) {
    let mut tally = Tally::default();
    let mut files: Vec<_> = WORKED
        .iter()
        .map(|file| (file.to_vec(), reader::read(file)))
        .collect();
    for (made, answer) in chosen(seed, count) {
        tally.add(&made, &answer);
        files.push((made.bytes, answer));
    }
    (files, tally)
}

/// The files of a seed that the program holds, in the order of their lengths, and whether each is taken whatever it has.
fn held(seed: u64, count: u64) -> Vec<(bool, Made, Answer)> {
    let mut ordinary = 0;
    let mut sized = Vec::new();
    for index in 0..count {
        let made = classes::numbered(seed, index);
        let length = made.bytes.len();
        if length > MOST_BYTES {
            continue;
        }
        let answer = reader::read(&made.bytes);
        let whatever = ordinary < ORDINARY && ORDINARY_LENGTHS.contains(&length);
        ordinary += usize::from(whatever);
        sized.push((whatever, made, answer));
    }
    sized.sort_by_key(|(_, made, _)| made.bytes.len());
    sized
}

/// The chosen files of a seed, in the order of their lengths.
fn chosen(seed: u64, count: u64) -> Vec<(Made, Answer)> {
    let mut reached = Vec::new();
    let mut chosen = Vec::new();
    for (whatever, made, answer) in held(seed, count) {
        let has = has(&made, &answer);
        reached.resize(has.len(), 0);
        let news = has.iter().zip(&reached);
        if whatever || news.into_iter().any(|(has, count)| *has && *count < WANTED) {
            for (count, has) in reached.iter_mut().zip(has) {
                *count += usize::from(has);
            }
            chosen.push((made, answer));
        }
    }
    chosen
}

/// Each class, number, fact and number behind a number, whether the file has it. Facts are those of a sound file.
fn has(made: &Made, answer: &Answer) -> Vec<bool> {
    let number = answer.as_ref().err().copied().unwrap_or(0);
    let classes = (0..CLASSES.len()).map(|class| class == made.class);
    let numbers = NUMBERS.iter().map(|&one| one == number);
    let sound = matches!(made.plan, Plan::Read(_));
    let facts = Fact::ALL.map(|fact| sound && made.facts.has(fact));
    classes
        .chain(numbers)
        .chain(facts)
        .chain(behind(&made.bytes, number))
        .collect()
}

/// For each number of `MENDED`, which number the file has where the header is mended; none if that is not its number.
fn behind(bytes: &[u8], number: u32) -> Vec<bool> {
    let mut has = Vec::new();
    for (given, at, well) in MENDED {
        let second = (given == number).then(|| {
            let mut mended = bytes.to_vec();
            mended[at..at + 2].copy_from_slice(&well);
            reader::read(&mended).err().unwrap_or(0)
        });
        has.extend(NUMBERS.map(|one| second == Some(one)));
    }
    has
}
