//! Files one and all: changes of the worked files, short tracks, and files at the limits.

use super::draft::around;
use super::entries::Entries;
use super::large::{LIMITS, Large, TIMED};
use super::tally::{Counts, columns, row};
use super::writer::SIGNIFICANT;
use super::{WORKED, check, reader, smallest};
use crate::checked::{Checked, same};

/// How many bytes of a short track run through the significant ones.
const MOST_RUNNING: u32 = 5;

/// What stands before the running bytes of a short track, and what behind them.
const AROUND: [(&str, &[u8], &[u8]); 7] = [
    ("tracks", b"", b""),
    ("tracks behind a delta", b"\x00", b""),
    ("tracks behind a running note", b"\x00\x90\x3c\x40", b""),
    ("tracks before an end", b"", END),
    ("tracks behind a delta, before an end", b"\x00", END),
    (
        "tracks of a running note and an end",
        b"\x00\x90\x3c\x40\x00",
        END,
    ),
    (
        "tracks of a running program and an end",
        b"\x00\xc0\x05\x00",
        END,
    ),
];
const END: &[u8] = b"\x00\xff\x2f\x00";

pub fn run(asked: &Entries) -> Checked {
    println!("{}", columns("all of"));
    part(asked, "prefixes of the worked files", &prefixes)?;
    part(asked, "worked files, one byte another", &changes)?;
    part(asked, "worked files, one byte less", &deletions)?;
    for (name, before, behind) in AROUND {
        part(asked, name, &|each| tracks(before, behind, each))?;
    }
    for large in LIMITS.iter().chain(&TIMED) {
        limit(asked, large)?;
    }
    println!("{}: all agree", asked.name);
    Ok(())
}

/// Takes the files one by one.
type Each<'a> = dyn FnMut(&[u8]) -> Checked + 'a;

/// Compares on all files of a part and prints a row.
fn part(asked: &Entries, name: &str, files: &dyn Fn(&mut Each) -> Checked) -> Checked {
    let mut counts = Counts::default();
    files(&mut |bytes| {
        let answer = reader::read(bytes);
        counts.add(&answer);
        check::answer(asked, bytes, &answer)
            .map_err(|what| format!("{name}: {what}\n{}", smallest(asked, bytes)))
    })?;
    println!("{}", row(name, &counts));
    Ok(())
}

fn prefixes(each: &mut Each) -> Checked {
    let mut files = WORKED.into_iter();
    files.try_for_each(|file| (0..=file.len()).try_for_each(|length| each(&file[..length])))
}

fn changes(each: &mut Each) -> Checked {
    for file in WORKED {
        for at in 0..file.len() {
            for other in 1..=255 {
                let mut changed = file.to_vec();
                changed[at] ^= other;
                each(&changed)?;
            }
        }
    }
    Ok(())
}

fn deletions(each: &mut Each) -> Checked {
    for file in WORKED {
        for at in 0..file.len() {
            each(&[&file[..at], &file[at + 1..]].concat())?;
        }
    }
    Ok(())
}

/// Tracks of up to so many running bytes, in all ways.
fn tracks(before: &[u8], behind: &[u8], each: &mut Each) -> Checked {
    let bytes = SIGNIFICANT.len();
    for length in 0..=MOST_RUNNING {
        for number in 0..bytes.pow(length) {
            let mut track = before.to_vec();
            let digits = (0..length).map(|place| number / bytes.pow(place) % bytes);
            track.extend(digits.map(|digit| SIGNIFICANT[digit]));
            track.extend(behind);
            each(&around(&track))?;
        }
    }
    Ok(())
}

/// A large file, whose number is known beforehand.
fn limit(asked: &Entries, large: &Large) -> Checked {
    let file = (large.file)();
    let answer = reader::read(&file);
    let mut counts = Counts::default();
    counts.add(&answer);
    let number = answer.as_ref().err().copied().unwrap_or(0);
    same("second reader", number, large.number)
        .and_then(|()| check::answer(asked, &file, &answer))
        .map_err(|what| format!("{}: {what}", large.name))?;
    println!("{}", row(large.name, &counts));
    Ok(())
}
