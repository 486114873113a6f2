//! The second reader on the rules' edges, what the classes come to, and that a run sees faults.

use super::classes::{CLASSES, Plan, of_class};
use super::draft::{TRACK, around, head};
use super::entries::{Entries, PieceSize, SCANNER};
use super::facts::Fact;
use super::{Tally, WORKED, check, classes, planned, reader, run, shrink};
use crate::examples::EXAMPLES;
use crate::generate::Random;

fn bytes(hex: &str) -> Vec<u8> {
    let digits: Vec<_> = hex.chars().filter(|digit| *digit != ' ').collect();
    let byte = |pair: &[char]| u8::from_str_radix(&String::from_iter(pair), 16);
    let bytes = digits.chunks(2).map(byte).collect::<Result<_, _>>();
    bytes.expect("hexadecimal digits")
}

/// The events of a file around a track, the end's left out.
fn events(track: &[u8]) -> Result<Vec<(u32, u32)>, u32> {
    let mut events = reader::read(&around(track))?.tracks().swap_remove(0);
    assert_eq!(events.pop().map(|end| end.1), Some(6 << 24));
    Ok(events)
}

#[test]
fn worked_files() {
    for (file, name) in WORKED.into_iter().zip(["format 0", "format 1"]) {
        let example = EXAMPLES.iter().find(|one| one.name.ends_with(name));
        let piece = example.expect("an example").piece();
        assert_eq!(reader::read(file), Ok(piece.clone()));
        assert_eq!(check::answer(&SCANNER, file, &Ok(piece)), Ok(()));
    }
}

/// Before an end: one event, with its delta and word.
#[test]
fn single_events() {
    for (track, delta, word) in [
        ("00 90 3C 40", 0, 0x0900_3c40),
        ("00 90 3C 00", 0, 0x0900_3c00),
        ("7F 8F 00 7F", 127, 0x080f_007f),
        ("81 00 C1 2E", 128, 0x0c01_2e00),
        ("00 DF 7F", 0, 0x0d0f_7f00),
        ("FF FF FF 7F E0 00 40", 268_435_455, 0x0e00_0040),
        ("80 80 80 05 A0 01 02", 5, 0x0a00_0102),
        ("00 FF 51 03 FF FE FD", 0, 0x02ff_fefd),
        ("00 FF 51 80 80 80 03 00 00 00", 0, 0x0200_0000),
        ("00 FF 58 04 FF 07 12 34", 0, 0x03ff_0700),
        ("00 FF 59 02 80 01", 0, 0x0480_0100),
        ("00 FF 7F 07 41 43 52 44 31 FF 80", 0, 0x05ff_8000),
        ("00 FF 7F 80 07 41 43 52 44 31 00 01", 0, 0x0500_0100),
        ("00 FF 7F 06 41 43 52 44 31 00", 0, 0),
        ("00 FF 7F 08 41 43 52 44 31 00 01 02", 0, 0),
        ("00 FF 7F 07 41 43 52 44 32 00 01", 0, 0),
        ("00 FF 01 07 41 43 52 44 31 00 01", 0, 0),
        ("00 FF 7F 00", 0, 0),
        ("00 FF 00 80 80 80 00", 0, 0),
        ("00 FF 20 02 FF 2F", 0, 0),
        ("00 F0 00", 0, 0x0100_0000),
        ("00 F0 03 90 3C F7", 0, 0x0100_0000),
        ("05 F7 80 01 F1", 5, 0x0100_0000),
    ] {
        let track = [bytes(track), bytes("00 FF 2F 00")].concat();
        assert_eq!(events(&track), Ok(vec![(delta, word)]), "{track:02x?}");
    }
}

#[test]
fn running_status() {
    let track = "00 90 3C 40 10 3C 00 00 C5 01 00 02 00 90 01 02 00 FF 2F 00";
    let words = [
        0x0900_3c40,
        0x0900_3c00,
        0x0c05_0100,
        0x0c05_0200,
        0x0900_0102,
    ];
    let wanted: Vec<_> = [0, 16, 0, 0, 0].into_iter().zip(words).collect();
    assert_eq!(events(&bytes(track)), Ok(wanted));
    assert_eq!(events(&bytes("00 FF 2F 80 80 80 00")), Ok(vec![]));
    assert_eq!(events(&bytes("81 80 80 00 FF 2F 00")), Ok(vec![]));
}

/// Whole tracks that are refused.
#[test]
fn refused_tracks() {
    for (track, number) in [
        ("", 12),
        ("00", 12),
        ("00 90 3C 40", 12),
        ("00 FF 2F", 12),
        ("00 FF 2F 00 00", 12),
        ("00 FF 2F 00 00 FF 2F 00", 12),
        ("00 FF 2F 01 00", 12),
        ("00 FF 2F 80 80 80 80 00", 12),
        ("80 80 80 80 00 FF 2F 00", 12),
        ("00 3C 40 00 FF 2F 00", 12),
        ("00 90 3C 40 00 FF 01 00 00 3C 40 00 FF 2F 00", 12),
        ("00 90 3C 40 00 F0 00 00 3C 40 00 FF 2F 00", 12),
        ("00 90 3C 40 00 F7 00 00 3C 40 00 FF 2F 00", 12),
        ("00 F1 00 00 FF 2F 00", 12),
        ("00 F8 00 FF 2F 00", 12),
        ("00 90 F8 40 00 FF 2F 00", 12),
        ("00 90 3C 80 00 FF 2F 00", 12),
        ("00 C0 80 00 FF 2F 00", 12),
        ("00 FF 80 00 00 FF 2F 00", 12),
        ("00 FF 51 02 00 00 00 FF 2F 00", 12),
        ("00 FF 58 03 00 00 00 00 FF 2F 00", 12),
        ("00 FF 59 03 00 00 00 00 FF 2F 00", 12),
        ("00 F0 05 00 FF 2F 00", 12),
        ("00 FF 01 80 80 80 80 00 00 FF 2F 00", 12),
        ("00 FF 58 04 04 08 18 08 00 FF 2F 00", 5),
        ("00 FF 59 02 00 02 00 FF 2F 00", 5),
        ("00 FF 59 02 00 02 00 FF 2F 00 00", 12),
    ] {
        assert_eq!(events(&bytes(track)), Err(number), "{track}");
    }
}

/// A file of hexadecimal digits, in which T is a track of an end alone.
fn file(text: &str) -> Result<Vec<u32>, u32> {
    let mut track = Vec::new();
    head(&mut track, TRACK, 4);
    let track: String = track.iter().map(|byte| format!("{byte:02x}")).collect();
    let hex = text.replace('T', &(track + "00ff2f00"));
    reader::read(&bytes(&hex)).map(|piece| piece.sizes)
}

#[test]
fn chunks() {
    const HEAD: &str = "4D546864 00000006";
    for (rest, wanted) in [
        ("0000 0001 0060 T", Ok(vec![96, 1, 1])),
        ("0001 0000 FFFF", Ok(vec![65_535, 0])),
        (
            "0001 0002 0060 T 00000000 00000001 FF T",
            Ok(vec![96, 2, 1, 1]),
        ),
        ("0001 0001 0060 T 4D54726C 00000000", Ok(vec![96, 1, 1])),
        ("0000 0000 0060", Err(12)),
        ("0000 0002 0060 T T", Err(12)),
        ("0000 0001 0060 T T", Err(12)),
        ("0001 0001 0060", Err(12)),
        ("0001 0000 0060 T", Err(12)),
        ("0001 0000 0060 4D546864 00000006 0001 0000 0060", Err(12)),
        ("0001 0000 0060 4D546864 00000000", Err(12)),
        ("0001 0000 0060 00", Err(12)),
        ("0001 0000 0060 00000000 000000", Err(12)),
        ("0001 0000 0060 00000000 00000001", Err(12)),
        ("0001 0000 0060 00000000 FFFFFFFF 00", Err(12)),
        ("0001 0000 0000", Err(2)),
        ("0001 0001 0000 T 00", Err(12)),
        ("0002 0000 0060 00", Err(13)),
        ("0100 0000 0000", Err(13)),
        ("0002 0000 00", Err(12)),
    ] {
        assert_eq!(file(&format!("{HEAD} {rest}")), wanted, "{rest}");
    }
}

#[test]
fn headers() {
    for (text, wanted) in [
        ("", Err(12)),
        ("4D546864", Err(12)),
        ("4D546864 00000005 0001 0000 00", Err(12)),
        ("4D546864 00000007 0001 0000 0060", Err(12)),
        ("4D546864 00000007 0002 0000 0060", Err(12)),
        ("4D546864 FFFFFFFF 0002 0000 0060 T", Err(12)),
        (
            "4D546864 00000008 0001 0001 0060 FFFF T",
            Ok(vec![96, 1, 1]),
        ),
        ("4D546864 00000008 0002 0001 0060 FFFF", Err(13)),
        ("T 4D546864 00000006 0001 0001 0060", Err(12)),
        (
            "00000000 00000000 4D546864 00000006 0001 0000 0060",
            Err(12),
        ),
    ] {
        assert_eq!(file(text), wanted, "{text}");
    }
}

/// Every class makes what it says, and each comes up in a run of ordinary length, as do all freedoms.
#[test]
fn made_as_planned() {
    for class in 0..CLASSES.len() {
        let mut random = Random::new(class as u64);
        for _ in 0..200 {
            let made = of_class(class, &mut random);
            let answer = reader::read(&made.bytes);
            let name = CLASSES[class].name;
            assert_eq!(
                planned(&made, &answer),
                Ok(()),
                "{name}: {:02x?}",
                made.bytes
            );
        }
    }
    let mut tally = Tally::default();
    for index in 0..20_000 {
        let made = classes::numbered(1, index);
        tally.add(&made, &reader::read(&made.bytes));
    }
    for (index, class) in CLASSES.iter().enumerate() {
        assert!(tally.class(index).sum() > 0, "{}", class.name);
    }
    for fact in Fact::ALL {
        assert!(tally.fact(fact) > 10, "{fact:?}: {}", tally.fact(fact));
    }
}

#[test]
fn scrambled_files_are_read_too() {
    let mut tally = Tally::default();
    for index in 0..50_000 {
        let made = classes::numbered(2, index);
        if made.plan == Plan::Open {
            tally.add(&made, &reader::read(&made.bytes));
        }
    }
    for (index, class) in CLASSES.iter().enumerate() {
        let counts = tally.class(index);
        assert!(counts.sum() == 0 || counts.of(0) > 0, "{}", class.name);
    }
}

#[test]
fn scanner_agrees() {
    assert_eq!(run(&SCANNER, [1, 20_000, u64::MAX]), Ok(()));
}

/// Declares entries that spoil what the scanner answered or wrote, and what is said of it.
macro_rules! fault {
    ($name:ident, |$size:ident, $sizes:ident, $deltas:ident, $words:ident| $spoil:expr, $said:literal) => {
        #[test]
        fn $name() {
            #[rustfmt::skip]
            #[allow(unused_mut, clippy::too_many_arguments)]
            unsafe extern "C" fn read(bytes: *const u8, bytes_n: usize, sizes: *mut u32, sizes_n: usize,
                deltas: *mut u32, deltas_n: usize, words: *mut u32, words_n: usize) -> PieceSize {
                // The arguments are passed on as they came; arrays are spoiled within their rooms.
                unsafe {
                    let mut $size = (SCANNER.read)(bytes, bytes_n, sizes, sizes_n, deltas, deltas_n, words, words_n);
                    let $sizes = std::slice::from_raw_parts_mut(sizes, sizes_n);
                    let $deltas = std::slice::from_raw_parts_mut(deltas, deltas_n);
                    let $words = std::slice::from_raw_parts_mut(words, words_n);
                    let _ = (&$sizes, &$deltas, &$words);
                    $spoil;
                    $size
                }
            }
            let asked = Entries { read, ..SCANNER };
            let what = run(&asked, [3, 5_000, u64::MAX]).expect_err("nothing is seen");
            assert!(what.contains($said), "{what}");
            assert!(what.contains("\nsmallest:\n"), "{what}");
        }
    };
}

fault!(
    another_number,
    |size, s, d, w| if size.number == 5 {
        size.number = 12
    },
    "number: 12"
);
fault!(
    a_field_beside_a_number,
    |size, s, d, w| if size.number > 0 {
        size.events = 1
    },
    "events: 1"
);
fault!(
    another_count,
    |size, s, d, w| if size.number == 0 {
        size.events += 1
    },
    "read"
);
fault!(
    a_word,
    |size, s, d, w| if size.events > 2 {
        w[1] ^= 1
    },
    "words: element 1"
);
fault!(
    a_delta,
    |size, s, d, w| if size.events > 2 {
        d[2] ^= 1
    },
    "deltas: element 2"
);
fault!(
    a_size,
    |size, s, d, w| if size.sizes > 3 {
        s[3] += 1
    },
    "sizes: element 3"
);
fault!(
    behind_the_list,
    |size, s, d, w| if w.len() > size.events {
        w[size.events] = 0
    },
    "words: element"
);
fault!(
    beside_a_refusal,
    |size, s, d, w| if size.number == 8 && !d.is_empty() {
        d[0] = 0
    },
    "deltas: element 0"
);

#[test]
fn size_alone() {
    unsafe extern "C" fn size(bytes: *const u8, bytes_n: usize) -> PieceSize {
        // Passed on as they came.
        let mut size = unsafe { (SCANNER.size)(bytes, bytes_n) };
        size.sizes += 1;
        size
    }
    let asked = Entries { size, ..SCANNER };
    let what = run(&asked, [3, 5_000, u64::MAX]).expect_err("nothing is seen");
    assert!(what.contains("read_size"), "{what}");
}

/// Chunk lengths and the count follow what is taken away.
#[test]
fn small_files() {
    let has_meter = |file: &[u8]| {
        let piece = reader::read(file);
        piece.is_ok_and(|piece| piece.words.iter().any(|word| word >> 24 == 3))
    };
    let track = bytes("00 FF 58 04 00 00 00 00 00 FF 2F 00");
    assert_eq!(shrink::smallest(WORKED[1], has_meter), around(&track));
}
