//! Refusals on pieces made by hand.

use differential::piece::Piece;
use differential::{reference, refusals, text};

const NOTE: u32 = 9 << 24 | 60 << 8 | 64;

fn piece(sizes: &[u32], deltas: &[u32], words: &[u32]) -> Piece {
    Piece {
        sizes: sizes.to_vec(),
        deltas: deltas.to_vec(),
        words: words.to_vec(),
    }
}

/// One track of the given words.
fn track(words: &[u32]) -> Piece {
    piece(&[480, 1, words.len() as u32], &vec![0; words.len()], words)
}

fn refused(piece: &Piece, number: u8) {
    assert_eq!(refusals::import(piece), Some(number), "{piece:?}");
    assert_eq!(reference::import(piece), Err(number));
    assert_eq!(refusals::part(piece, 0), Some(number));
    if number == 6 {
        assert!(reference::diagnostics(piece).is_ok());
    } else {
        assert_eq!(reference::diagnostics(piece), Err(number));
    }
}

fn imported(piece: &Piece) {
    assert_eq!(refusals::import(piece), None, "{piece:?}");
    assert!(reference::import(piece).is_ok());
}

#[test]
fn sizes() {
    refused(&piece(&[], &[], &[]), 1);
    refused(&piece(&[480], &[], &[]), 1);
    refused(&piece(&[480, 1], &[], &[]), 1);
    refused(&piece(&[480, 0, 0], &[], &[]), 1);
    refused(&piece(&[480, 1, 2], &[0], &[NOTE]), 1);
    refused(&piece(&[480, 1, 1], &[0, 0], &[NOTE]), 1);
    refused(&piece(&[480, 1, 1], &[0], &[]), 1);
    refused(&piece(&[65_536, 1, 1], &[0], &[NOTE]), 1);
    refused(&piece(&[480, 2, 1 << 31, 1 << 31], &[], &[]), 1);
    let mut sizes = vec![0; 2 + 65_536];
    (sizes[0], sizes[1]) = (480, 65_536);
    refused(&piece(&sizes, &[], &[]), 1);
    sizes.pop();
    sizes[1] = 65_535;
    refused(&piece(&sizes, &[], &[]), 6);
}

#[test]
fn division() {
    refused(&piece(&[0, 1, 1], &[0], &[NOTE]), 2);
    refused(&piece(&[0, 1, 1], &[u32::MAX], &[0]), 2);
    refused(&piece(&[0, 1, 2], &[0], &[NOTE]), 1);
    for division in [1, 32_767, 32_768, 65_535] {
        imported(&piece(&[division, 1, 1], &[0], &[NOTE]));
    }
}

#[test]
fn event_count() {
    let many = |count: usize, word: u32| {
        let mut words = vec![word; count];
        words[0] = NOTE;
        track(&words)
    };
    imported(&many(500_000, 0));
    refused(&many(500_001, 0), 3);
    refused(&many(500_001, 7 << 24), 3);
}

#[test]
fn deltas_and_words_in_order() {
    let most = 268_435_455;
    imported(&piece(&[480, 1, 1], &[most], &[NOTE]));
    refused(&piece(&[480, 1, 1], &[most + 1], &[NOTE]), 4);
    refused(&piece(&[480, 1, 1], &[most + 1], &[7 << 24]), 4);
    refused(&piece(&[480, 1, 2], &[0, most + 1], &[7 << 24, NOTE]), 5);
    refused(&piece(&[480, 1, 2], &[most + 1, 0], &[NOTE, 7 << 24]), 4);
    refused(&piece(&[480, 2, 1, 1], &[0, most + 1], &[NOTE, NOTE]), 4);
}

#[test]
fn words() {
    let bad = [
        0x0000_0001,
        0x0100_0100,
        0x0601_0000,
        0x0304_0800,
        0x0304_0201,
        0x0400_0200,
        0x0400_0001,
        0x0500_0001,
        0x0700_0000,
        0x0810_0000,
        0x0900_8000,
        0x0a00_0080,
        0x0b10_0000,
        0x0c00_8000,
        0x0c00_0001,
        0x0d10_0000,
        0x0e00_0080,
        0x0f00_0000,
        0xff00_0000,
    ];
    for word in bad {
        refused(&track(&[NOTE, word]), 5);
    }
    let good = [
        0x0000_0000,
        0x0100_0000,
        0x0200_0000,
        0x02ff_ffff,
        0x03ff_0700,
        0x0300_0000,
        0x0480_0100,
        0x05ff_ff00,
        0x0600_0000,
        0x080f_7f7f,
        0x0a0f_7f7f,
        0x0b0f_7f7f,
        0x0c0f_7f00,
        0x0d0f_7f00,
        0x0e0f_7f7f,
    ];
    for word in good {
        imported(&track(&[NOTE, word]));
    }
}

#[test]
fn notes_and_parts() {
    refused(&piece(&[480, 0], &[], &[]), 6);
    refused(&track(&[]), 6);
    refused(&track(&[8 << 24, NOTE & !0xff]), 6);
    let two = piece(&[480, 3, 1, 1, 1], &[0; 3], &[NOTE, 0, NOTE]);
    assert_eq!(refusals::part(&two, 1), None);
    assert_eq!(refusals::part(&two, 2), Some(7));
    let mut sizes = vec![1; 2 + 40];
    (sizes[0], sizes[1]) = (480, 40);
    let forty = piece(&sizes, &[0; 40], &[NOTE; 40]);
    assert_eq!(refusals::part(&forty, 31), None);
    assert_eq!(refusals::part(&forty, 32), Some(7));
    assert_eq!(refusals::part(&forty, u32::MAX), Some(7));
    imported(&forty);
}

#[test]
fn texts() {
    assert_eq!(
        Piece::parse("480 0\n\n\n"),
        Some(piece(&[480, 0], &[], &[]))
    );
    assert_eq!(Piece::parse("480 1 1\n0\n1"), Some(track(&[1])));
    for text in [
        "",
        "480 0\n\n",
        "1\n2\n3\n4\n",
        "480 1 1\n0\n-1\n",
        "480 1 1\n+0\n1\n",
        "480 1 1\n0\n4294967296\n",
        "480 1 1\n0\nx\n",
    ] {
        assert_eq!(Piece::parse(text), None, "{text:?}");
    }
    assert_eq!(text::print(&Err(1)), "refused 1\n");
}
