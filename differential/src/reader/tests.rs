//! The smallest staffs that reach each point, and lists compared with the reference's.

use super::notes::snapped;
use super::{Answer, Bar, Note, Part, Point, alone, grid, parts, read, reasons, values};
use crate::mutate::{self, Sources};
use crate::packed::{self, Staff};
use crate::piece::{Piece, word};
use crate::{generate, proofread, reference};

const DOT: u32 = 1 << 4;
const TIE_IN: u32 = 1 << 5;
const TIE_OUT: u32 = 1 << 6;
const UNPITCHED: u32 = 1 << 7;
const REST: u32 = 1 << 8;

const C4: u128 = 1 << 60;
const WHOLE: u32 = 2;
const HALF: u32 = 3;
const QUARTER: u32 = 4;

type Voice<'a> = &'a [(u32, u128)];

/// A staff of so many bars, the items of each voice as (head, keys).
fn staff(bars: &[[Voice; 4]]) -> Staff {
    let voices = || bars.iter().flatten();
    let items = || voices().copied().flatten();
    Staff {
        counts: voices().map(|voice| voice.len() as u32).collect(),
        heads: items().map(|item| item.0).collect(),
        keys: items()
            .flat_map(|item| [item.1 as u64, (item.1 >> 64) as u64])
            .collect(),
    }
}

fn bar(voices: [Voice; 4]) -> Staff {
    staff(&[voices])
}

/// One voice alone.
fn line(items: Voice) -> Staff {
    bar([items, &[], &[], &[]])
}

fn first_part(piece: &Piece) -> Part {
    let import = reference::import(piece).expect("an import");
    parts(piece, &packed::bars(&import.bars)).remove(0)
}

/// The piece that document 01 prints: key 60 for a quarter, in one bar of four.
fn printed() -> Part {
    let text = "480 1 3\n0 480 0\n151010368 134233088 100663296\n";
    first_part(&Piece::parse(text).expect("three lines"))
}

/// A part at 480 ticks per quarter, its events as (tick, kind, key).
fn played(events: &[(u32, u8, u8)]) -> Part {
    let mut tick = 0;
    let event = |&(at, kind, key): &(u32, u8, u8)| {
        let delta = at - std::mem::replace(&mut tick, at);
        (delta, word(kind, 0, key, 64))
    };
    first_part(&Piece::of_tracks(
        480,
        &[events.iter().map(event).collect()],
    ))
}

#[track_caller]
fn fails(point: Point, staff: Staff) {
    assert_eq!(read(&printed(), &staff), Answer::No(point), "{staff:?}");
}

#[track_caller]
fn holds(staff: Staff) {
    assert_eq!(read(&printed(), &staff), Answer::Yes, "{staff:?}");
}

#[test]
fn printed_example() {
    let part = printed();
    let note = Note {
        start: 0,
        end: 480,
        key: 60,
        channel: 0,
    };
    assert_eq!(part.notes, [note]);
    let whole = Bar {
        start: 0,
        length: 1920,
    };
    assert_eq!(part.bars, [whole]);
    let right = line(&[(QUARTER, C4), (HALF | DOT | REST, 0)]);
    assert_eq!(right.heads, [4, 0x113]);
    holds(right.clone());
    for key in 0..128 {
        let mut staff = right.clone();
        staff.keys[key / 64] ^= 1 << (key % 64);
        // With its only key gone the item has none; any other key is invented.
        let point = if key == 60 {
            Point::Rests
        } else {
            Point::Invented
        };
        fails(point, staff);
    }
    fails(
        Point::Found,
        line(&[(QUARTER, C4 << 1), (HALF | DOT | REST, 0)]),
    );
}

#[test]
fn malformed() {
    let right = line(&[(WHOLE, C4)]);
    holds(right.clone());
    fails(Point::Malformed, Staff::default());
    for bit in 9..32 {
        fails(Point::Malformed, line(&[(WHOLE | 1 << bit, C4)]));
    }
    let spoilt = |spoil: fn(&mut Staff)| {
        let mut staff = right.clone();
        spoil(&mut staff);
        fails(Point::Malformed, staff);
    };
    spoilt(|staff| staff.counts[0] = 0);
    spoilt(|staff| staff.counts[1] = u32::MAX);
    spoilt(|staff| staff.counts.truncate(3));
    spoilt(|staff| staff.counts.extend([0; 4]));
    spoilt(|staff| staff.heads.clear());
    spoilt(|staff| staff.heads.push(WHOLE));
    spoilt(|staff| staff.keys.truncate(1));
    spoilt(|staff| staff.keys.push(0));
}

#[test]
fn written_values() {
    for code in 9..16 {
        fails(Point::Values, line(&[(code | REST, 0)]));
    }
    // A bar of 1/4 at one tick per quarter: an eighth is half a tick, a dotted half three.
    let piece = [(0, word(3, 1, 2, 0)), (0, word(9, 0, 60, 64))];
    let part = first_part(&Piece::of_tracks(1, &[piece.to_vec()]));
    let reading = |head| read(&part, &line(&[(head, C4)]));
    assert_eq!(reading(QUARTER), Answer::Yes);
    assert_eq!(reading(QUARTER + 1), Answer::No(Point::Values));
    assert_eq!(reading(QUARTER | DOT), Answer::No(Point::Values));
    assert_eq!(reading(HALF | DOT), Answer::No(Point::Full));
    let lengths = [
        (0, false, 7_680),
        (0, true, 11_520),
        (8, false, 30),
        (8, true, 45),
    ];
    for (code, dotted, length) in lengths {
        assert_eq!(values::length(code, dotted, 480), Some(length));
    }
    assert_eq!(values::length(9, false, 480), None);
    assert_eq!([480, 12, 5].map(values::smallest), [30, 3, 5]);
}

#[test]
fn full_bars() {
    fails(Point::Full, line(&[]));
    fails(Point::Full, line(&[(HALF, C4)]));
    fails(Point::Full, line(&[(WHOLE | DOT, C4)]));
    fails(Point::Full, bar([&[], &[(WHOLE, C4)], &[], &[]]));
    fails(
        Point::Full,
        bar([&[(WHOLE, C4)], &[], &[], &[(HALF | REST, 0)]]),
    );
    holds(bar([&[(WHOLE, C4)], &[], &[], &[(WHOLE | REST, 0)]]));
}

#[test]
fn rests() {
    fails(Point::Rests, line(&[(WHOLE, 0)]));
    fails(Point::Rests, line(&[(WHOLE | REST, C4)]));
    fails(Point::Rests, line(&[(WHOLE | REST, C4 << 64)]));
    for mark in [TIE_IN, TIE_OUT, UNPITCHED] {
        fails(Point::Rests, line(&[(WHOLE | REST | mark, 0)]));
    }
}

#[test]
fn ties() {
    let halves = |first: u32, second: u32, keys| line(&[(HALF | first, C4), (HALF | second, keys)]);
    holds(halves(TIE_OUT, TIE_IN, C4));
    holds(halves(TIE_OUT, TIE_IN | TIE_OUT, C4));
    holds(halves(TIE_OUT | UNPITCHED, TIE_IN | UNPITCHED, C4));
    fails(Point::Ties, halves(TIE_OUT, 0, C4));
    fails(Point::Ties, halves(0, TIE_IN, C4));
    fails(Point::Ties, halves(TIE_IN | TIE_OUT, TIE_IN, C4));
    fails(Point::Ties, halves(TIE_OUT, TIE_IN, C4 | 1));
    fails(Point::Ties, halves(TIE_OUT, TIE_IN | UNPITCHED, C4));
    fails(Point::Ties, halves(TIE_OUT, REST, 0));
    fails(Point::Ties, line(&[(WHOLE | TIE_IN, C4)]));
    // Ties of two voices do not meet.
    let voice = [(HALF | TIE_OUT, C4), (HALF | REST, 0)];
    let other = [(HALF | REST, 0), (HALF | TIE_IN, C4)];
    fails(Point::Ties, bar([&voice, &other, &[], &[]]));
}

#[test]
fn ties_over_an_empty_bar() {
    // One note over three bars, in voice 2.
    let part = played(&[(0, 9, 60), (5760, 8, 60)]);
    let [first, middle, last] =
        [TIE_OUT, TIE_IN | TIE_OUT, TIE_IN].map(|ties| [(WHOLE | ties, C4)]);
    let rest: Voice = &[(WHOLE | REST, 0)];
    let tied = |middle| {
        let voices = [&first[..], middle, &last[..]];
        staff(&voices.map(|voice| [rest, &[], voice, &[]]))
    };
    assert_eq!(read(&part, &tied(&middle)), Answer::Yes);
    assert_eq!(read(&part, &tied(&[])), Answer::No(Point::Ties));
    assert_eq!(read(&part, &tied(rest)), Answer::No(Point::Ties));
}

#[test]
fn each_note_is_found() {
    fails(Point::Found, line(&[(WHOLE | REST, 0)]));
    fails(Point::Found, line(&[(HALF | REST, 0), (HALF, C4)]));
    fails(Point::Found, line(&[(WHOLE, C4 << 64)]));
    // A note that starts at the last bar's end is not asked for, nor may it be written.
    let late = played(&[(1900, 9, 60), (1920, 8, 60)]);
    assert_eq!(late.bars.len(), 1);
    assert_eq!(read(&late, &line(&[(WHOLE | REST, 0)])), Answer::Yes);
    let invented = Answer::No(Point::Invented);
    assert_eq!(read(&late, &line(&[(WHOLE, C4)])), invented);
}

#[test]
fn no_key_is_invented() {
    fails(Point::Invented, line(&[(WHOLE, C4 | 1)]));
    fails(Point::Invented, line(&[(WHOLE, C4 | 1 << 127)]));
    fails(Point::Invented, line(&[(HALF, C4), (HALF, C4)]));
    // Twice is no invention.
    holds(bar([&[(WHOLE, C4)], &[], &[(WHOLE, C4)], &[]]));
}

#[test]
fn chords_end() {
    fails(Point::Ends, line(&[(HALF, C4), (HALF | REST, 0)]));
    // To the note's end, and to the last bar's.
    holds(line(&[(QUARTER, C4), (HALF | DOT | REST, 0)]));
    holds(line(&[(WHOLE, C4)]));
    // Key 60 to 480, 62 from 960 to 1440: 60 may also end at the next chord of its own voice.
    let part = played(&[(0, 9, 60), (480, 8, 60), (960, 9, 62), (1440, 8, 62)]);
    let last = [(QUARTER, C4 << 2), (QUARTER | REST, 0)];
    let to_next = [(HALF, C4), last[0], last[1]];
    assert_eq!(read(&part, &line(&to_next)), Answer::Yes);
    let two = bar([
        &[(HALF, C4), (HALF | REST, 0)],
        &[(HALF | REST, 0), last[0], last[1]],
        &[],
        &[],
    ]);
    assert_eq!(read(&part, &two), Answer::No(Point::Ends));
    // An end of any note of that start will do, whatever its key.
    let part = played(&[(0, 9, 60), (0, 9, 62), (480, 8, 60), (960, 8, 62)]);
    let both = [(QUARTER, C4 | C4 << 2), (HALF | DOT | REST, 0)];
    assert_eq!(read(&part, &line(&both)), Answer::Yes);
    let exchanged = bar([
        &[(HALF, C4), (HALF | REST, 0)],
        &[(QUARTER, C4 << 2), both[1]],
        &[],
        &[],
    ]);
    assert_eq!(read(&part, &exchanged), Answer::Yes);
}

#[test]
fn uneven() {
    // Three ticks per quarter: a grid of one, where the smallest value is three.
    let part = first_part(&Piece::of_tracks(3, &[vec![(0, word(9, 0, 60, 64))]]));
    assert_eq!(read(&part, &line(&[(WHOLE, C4)])), Answer::Uneven);
    assert_eq!(read(&part, &Staff::default()), Answer::Uneven);
    // A bar of 1/128 at 480 is 15 ticks, half of the smallest value.
    let piece = [(0, word(3, 1, 7, 0)), (0, word(9, 0, 60, 64))];
    let part = first_part(&Piece::of_tracks(480, &[piece.to_vec()]));
    assert_eq!(part.bars[0].length, 15);
    assert_eq!(read(&part, &Staff::default()), Answer::Uneven);
}

/// Raw notes, grid and snapping, and the lengths of bars.
#[test]
fn lists_are_the_references() {
    for index in 0..2_000 {
        let piece = generate::numbered(1, index);
        let Ok(import) = reference::import(&piece) else {
            continue;
        };
        let voices = reference::voices(&piece).expect("an import");
        let parts = parts(&piece, &packed::bars(&import.bars));
        assert_eq!(parts.len(), voices.len());
        let lengths = import.bars.iter().map(|bar| (bar.start, bar.length));
        for (part, theirs) in parts.iter().zip(voices) {
            assert!(
                lengths
                    .clone()
                    .eq(part.bars.iter().map(|bar| (bar.start, bar.length)))
            );
            assert_eq!(grid(&part.notes, part.quarter), theirs.grid);
            let notes = snapped(&part.notes, part.quarter).into_iter();
            let ours = notes.map(|note| (note.start, note.key, note.end, note.channel));
            let theirs = theirs.notes.iter();
            let theirs = theirs.map(|note| (note.start, note.key, note.end, note.channel));
            let (mut ours, mut theirs): (Vec<_>, Vec<_>) = (ours.collect(), theirs.collect());
            // The reference has notes that never end in a hash map's order.
            ours.sort();
            theirs.sort();
            assert_eq!(ours, theirs, "piece 1 {index}");
        }
    }
}

/// A point fails alone where all the others hold.
#[test]
fn points_fail_alone() {
    let rest = (HALF | DOT | REST, 0);
    let is_alone = |point, staff: Staff| {
        fails(point, staff.clone());
        alone(&printed(), &staff, point)
    };
    let mut long = line(&[(QUARTER, C4), rest]);
    long.counts.push(0);
    assert!(is_alone(Point::Malformed, long));
    let short = [(9, C4), rest];
    assert!(!is_alone(Point::Values, line(&short)));
    assert!(is_alone(Point::Full, line(&[(QUARTER, C4)])));
    assert!(is_alone(
        Point::Full,
        bar([&[(QUARTER, C4), rest], &[rest], &[], &[]])
    ));
    assert!(is_alone(
        Point::Rests,
        line(&[(QUARTER, C4), (rest.0 | UNPITCHED, 0)])
    ));
    assert!(!is_alone(
        Point::Rests,
        line(&[(QUARTER, C4), (rest.0 | TIE_IN, 0)])
    ));
    assert!(is_alone(
        Point::Ties,
        line(&[(QUARTER | TIE_OUT, C4), rest])
    ));
    assert!(!is_alone(Point::Found, line(&[(QUARTER, C4 << 1), rest])));
    assert!(is_alone(Point::Found, line(&[(WHOLE | REST, 0)])));
    assert!(is_alone(Point::Invented, line(&[(QUARTER, C4 * 3), rest])));
    assert!(is_alone(Point::Ends, line(&[(HALF, C4), (HALF | REST, 0)])));
    // Yes is no failing point.
    assert!(!alone(
        &printed(),
        &line(&[(QUARTER, C4), rest]),
        Point::Ends
    ));
}

/// Changed staffs: a no has reasons.
#[test]
fn every_no_has_a_reason() {
    for index in 0..300 {
        let piece = generate::short(1, index);
        let Ok(import) = reference::import(&piece) else {
            continue;
        };
        let staffs = packed::staffs(&import);
        let mut random = proofread::random(1, index);
        for (number, part) in parts(&piece, &packed::bars(&import.bars))
            .iter()
            .enumerate()
        {
            let sources = Sources {
                staffs: &staffs,
                part: number,
                another: &staffs[0],
            };
            for _ in 0..20 {
                let (_, staff) = mutate::some(&mut random, &sources);
                if let Answer::No(point) = read(part, &staff) {
                    assert_ne!(reasons::of(part, &staff, point), [""; 0], "{point:?}");
                }
            }
        }
    }
}
