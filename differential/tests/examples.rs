//! The examples hold, and the two texts and the packed arrays are as documented.

use differential::answers::{Bar, Diagnostic, Key};
use differential::examples::EXAMPLES;
use differential::piece::Piece;
use differential::{packed, reference, spelling, text};

#[test]
fn examples_hold() {
    for example in EXAMPLES {
        assert_eq!(example.run(), Ok(()), "{}", example.name);
    }
}

fn piece(text: &str) -> Piece {
    Piece::parse(text).expect("three lines")
}

const PRINTED: &str = "480 1 3\n0 480 0\n151010368 134233088 100663296\n";

#[test]
fn facts_of_the_printed_example() {
    let answers = reference::answers(&piece(PRINTED));
    let want = "head tempo 120 meter 4/4 key -\n\
                part 0 channel 0 program 0\n\
                bar 1 start 0 length 1920 meter 4/4 printed 1 tempo - key -\n\
                item 0 1 0 code 4 dots 0 ties -- keys 60 spelled C4 unpitched 0\n\
                item 0 1 0 code 3 dots 1 rest\n";
    assert_eq!(text::answers(&answers), want);
}

#[test]
fn packed_staff_of_the_printed_example() {
    let import = reference::import(&piece(PRINTED)).expect("an import");
    let bars = packed::bars(&import.bars);
    assert_eq!((bars.starts, bars.marks), (vec![0], vec![0x1_0404]));
    let staff = packed::staff(&import.parts[0].staff);
    assert_eq!(staff.counts, [2, 0, 0, 0]);
    assert_eq!(staff.heads, [4, 0x113]);
    assert_eq!(staff.keys, [1 << 60, 0, 0, 0]);
    assert_eq!(packed::keys_of([1 << 60 | 1, 1 << 63]), [0, 60, 127]);
}

#[test]
fn packed_marks_and_places() {
    let bar = Bar {
        start: 7,
        length: 1,
        upper: 255,
        lower: 128,
        printed: false,
        tempo: Some(999),
        key: Some(Key {
            fifths: -7,
            minor: true,
        }),
    };
    let marks = packed::bars(&[bar]).marks;
    assert_eq!(marks, [255 | 128 << 8 | 999 << 17 | 1 << 27 | 1 << 32]);
    let diagnostic = Diagnostic {
        code: 5,
        track: 2,
        event: 3,
        tick: 4,
        channel: 15,
        key: 127,
    };
    let packed = packed::diagnostics(&[diagnostic]);
    assert_eq!(packed.places, [5 << 48 | 2 << 32 | 3]);
    assert_eq!(packed.details, [4 << 16 | 15 << 8 | 127]);
}

#[test]
fn timecode_has_no_place() {
    let diagnostics = reference::diagnostics(&piece("32768 0\n\n\n")).expect("a list");
    let packed = packed::diagnostics(&diagnostics);
    assert_eq!(
        (packed.places, packed.details),
        (vec![1 << 48], vec![65_535])
    );
}

#[test]
fn every_diagnostic_with_its_place() {
    // Off, system event, tempo inside a bar, then two ons: channel 1 key 5, channel 0 key 6.
    let text = "65535 1 5\n0 1 1 0 0\n134218752 16777216 33554433 151061761 150996481\n";
    let shown = text::answers(&reference::answers(&piece(text)));
    let lines: Vec<_> = shown.lines().filter(|l| l.starts_with("diag")).collect();
    assert_eq!(
        lines,
        [
            "diagnostic code 1 track 0 event 0 tick 0 channel - key -",
            "diagnostic code 2 track 0 event 2 tick 2 channel - key -",
            "diagnostic code 3 track 0 event 1 tick 1 channel - key -",
            "diagnostic code 4 track 0 event 0 tick 0 channel 0 key -",
            "diagnostic code 5 track 0 event 4 tick 2 channel 0 key 6",
            "diagnostic code 5 track 0 event 3 tick 2 channel 1 key 5",
        ]
    );
}

#[test]
fn values_and_spelling() {
    assert_eq!(reference::beats(0, 0), Ok(16.0));
    assert_eq!(reference::beats(4, 1), Ok(1.5));
    assert_eq!(reference::beats(9, 3), Ok(15.0 / 256.0));
    assert_eq!(reference::beats(10, 0), Err(10));
    assert_eq!(reference::beats(0, 4), Err(10));
    assert_eq!(reference::spelling(128), Err(10));
    let sharp = reference::spelling(61).expect("a key");
    assert_eq!((sharp.step, sharp.octave, sharp.alter), ('C', 4, 1));
    for key in 0..128 {
        assert_eq!(reference::spelling(key), Ok(spelling::of_key(key)));
    }
}
