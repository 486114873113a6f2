//! The list's text: decimals, with labels that have no digit before them, each list after its length.

use super::asked::{self, ARRAYS, Asked};
use super::calls::Calls;
use super::{Entry, readings};
use crate::files::list::File;
use crate::piece::Piece;
use std::fmt::{Display, Write};

/// The pieces asked with exactly enough and with too little room, too: one in so many, of the shorter ones.
const NARROW_EVERY: usize = 5;
const NARROW_LONGEST: usize = 4_000;
/// The same of files.
const NARROW_FILES: usize = 2;
/// The arrays whose lists a piece's length is told by: all but that of leftovers, which is also for files.
const MEASURED: usize = 4;

/// The text, and the calls that it has.
pub fn list(entries: &[Entry], files: &[File]) -> (String, Calls) {
    let mut text = format!("pieces {}\n", entries.len() + files.len());
    let mut counted = Calls::default();
    for (index, entry) in entries.iter().enumerate() {
        let narrow = index % NARROW_EVERY == 0 && length(entry) <= NARROW_LONGEST;
        let mut asked = asked::of(entry, narrow);
        asked.extend(readings::of(entry, narrow));
        counted.add(&asked);
        arrays(&mut text, index, &entry.piece);
        numbers::<u8>(&mut text, "bytes", &[]);
        calls(&mut text, &asked, ARRAYS);
    }
    for (index, (bytes, answer)) in files.iter().enumerate() {
        let asked = asked::of_file(answer, index % NARROW_FILES == 0);
        counted.add(&asked);
        arrays(&mut text, entries.len() + index, &Piece::default());
        numbers(&mut text, "bytes", bytes);
        calls(&mut text, &asked, ARRAYS);
    }
    (text, counted)
}

/// The length of a piece's text without proof-reading, without leftovers and without what is there for files alone.
pub fn length(entry: &Entry) -> usize {
    let mut text = String::new();
    arrays(&mut text, 0, &entry.piece);
    calls(&mut text, &asked::of(entry, false), MEASURED);
    text.len()
}

/// The arrays of a piece; a file has none.
fn arrays(text: &mut String, index: usize, piece: &Piece) {
    let events = piece.deltas.len().max(piece.words.len());
    let zeros = piece.deltas.iter().chain(&piece.words).all(|&n| n == 0) && events > 10_000;
    let zero_count = if zeros { events } else { 0 };
    writeln!(text, "\npiece {index}, zeros {zero_count}").expect("a string");
    let shown = |list| if zeros { &[][..] } else { list };
    let all = [&piece.sizes, shown(&piece.deltas), shown(&piece.words)];
    lists(text, &["sizes", "deltas", "words"], &all);
}

/// The calls with so many of their arrays, and the work area.
fn calls(text: &mut String, calls: &[Asked], arrays: usize) {
    writeln!(text, "calls {}", calls.len()).expect("a string");
    for asked in calls {
        let asked::Call(name, number, names) = &asked.call;
        write!(text, "{name}, call {number}, part {}, room", asked.part).expect("a string");
        for room in asked.room[..arrays].iter().chain(&asked.room[ARRAYS..]) {
            write!(text, " {room}").expect("a string");
        }
        numbers(text, ", answer", &asked.answer);
        lists(text, &names[..arrays], &asked.lists[..arrays]);
    }
}

/// Each list by its name. Those before the first that has a name are one line, and all if all are empty.
fn lists<T: Display>(text: &mut String, names: &[&str], lists: &[impl AsRef<[T]>]) {
    let empty = lists.iter().all(|list| list.as_ref().is_empty());
    let named = |name: &&str| !empty && !name.is_empty();
    let before = names.iter().position(named).unwrap_or(names.len());
    if before > 0 {
        writeln!(text, "none{}", " 0".repeat(before)).expect("a string");
    }
    for (name, list) in names.iter().zip(lists).skip(before) {
        let name = if name.is_empty() { "none" } else { name };
        numbers(text, name, list.as_ref());
    }
}

/// A label, the list's length and its numbers.
fn numbers<T: Display>(text: &mut String, label: &str, list: &[T]) {
    write!(text, "{label} {}:", list.len()).expect("a string");
    for number in list {
        write!(text, " {number}").expect("a string");
    }
    text.push('\n');
}
