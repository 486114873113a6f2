//! Document 01's examples without a star and published event examples, run against the reference and, with the
//! library, compared throughout.

use crate::answers::{Answers, Import};
use crate::checked::{Checked, same};
use crate::piece::{Piece, word};
use crate::{reference, text};

/// A piece, and a check of the reference's answers that says what differs.
pub struct Example {
    pub name: &'static str,
    piece: fn() -> Piece,
    check: fn(&Piece) -> Checked,
}

#[rustfmt::skip]
pub const EXAMPLES: [Example; 8] = [
    Example { name: "sole note 1900 to 1920", piece: sole_note, check: past_the_bar },
    Example { name: "3/4 then 4/4 at tick 0", piece: two_meters, check: head_and_bar },
    Example { name: "fifth voice cuts voice 0", piece: five_starts, check: cut },
    Example { name: "printed example", piece: quarter_note, check: printed },
    Example { name: "mirror off by a source tick", piece: source_ticks, check: two_kept },
    Example { name: "mirror in another order across kinds", piece: across_kinds, check: four_kept },
    Example { name: "worked file of format 0", piece: format_0, check: one_part },
    Example { name: "worked file of format 1", piece: format_1, check: three_parts },
];

impl Example {
    pub fn piece(&self) -> Piece {
        (self.piece)()
    }

    pub fn run(&self) -> Checked {
        let piece = (self.piece)();
        (self.check)(&piece)?;
        #[cfg(feature = "library")]
        crate::compare::piece(&piece)?;
        Ok(())
    }
}

fn on(delta: u32, channel: u8, key: u8, velocity: u8) -> (u32, u32) {
    (delta, word(9, channel, key, velocity))
}

fn off(delta: u32, channel: u8, key: u8) -> (u32, u32) {
    (delta, word(8, channel, key, 64))
}

fn program(channel: u8, program: u8) -> (u32, u32) {
    (0, word(12, channel, program, 0))
}

fn meter(upper: u8, power: u8) -> (u32, u32) {
    (0, word(3, upper, power, 0))
}

fn end(delta: u32) -> (u32, u32) {
    (delta, word(6, 0, 0, 0))
}

const TEMPO: (u32, u32) = (0, 2 << 24 | 500_000);

fn of_lines(text: &str) -> Piece {
    Piece::parse(text).expect("three lines")
}

/// The reference's answers, which must be an import without diagnostics.
fn clean(piece: &Piece) -> Result<Import, String> {
    let Answers {
        import,
        diagnostics,
    } = reference::answers(piece);
    same("diagnostics", diagnostics, Ok(Vec::new()))?;
    import.map_err(|number| format!("refused {number}"))
}

fn prints(import: &Import, want: &str) -> Checked {
    same("print", text::print(&Ok(import.clone())).as_str(), want)
}

fn sole_note() -> Piece {
    Piece::of_tracks(480, &[vec![on(1900, 0, 60, 64), off(20, 0, 60), end(0)]])
}

fn past_the_bar(piece: &Piece) -> Checked {
    let voices = reference::voices(piece).map_err(|number| format!("refused {number}"))?;
    same("start", voices[0].chords[0][0].start, 1920)?;
    prints(
        &clean(piece)?,
        "part 0 bars 1\nbar 1 0 1920 4/4 - -\n0 2 0 -- rest\n",
    )
}

fn two_meters() -> Piece {
    let note = [on(0, 0, 60, 64), off(1920, 0, 60), end(0)];
    let events = [meter(3, 2), meter(4, 2)].into_iter().chain(note);
    Piece::of_tracks(480, &[events.collect()])
}

fn head_and_bar(piece: &Piece) -> Checked {
    let import = clean(piece)?;
    same("head", (import.head.upper, import.head.lower), (3, 4))?;
    prints(
        &import,
        "part 0 bars 1\nbar 1 0 1920 4/4 - -\n0 2 0 -- 60\n",
    )
}

fn five_starts() -> Piece {
    let mut events: Vec<_> = (0..5u8)
        .map(|index| on(if index == 0 { 0 } else { 120 }, 0, 60 + index, 64))
        .collect();
    events.push(off(1440, 0, 60));
    events.extend((1..5u8).map(|index| off(0, 0, 60 + index)));
    events.push(end(0));
    Piece::of_tracks(480, &[events])
}

fn cut(piece: &Piece) -> Checked {
    prints(
        &clean(piece)?,
        "part 0 bars 1\n\
         bar 1 0 1920 4/4 - -\n\
         0 4 0 -- 60\n\
         0 3 1 -- 64\n\
         1 6 0 -- rest\n\
         1 3 1 -s 61\n\
         1 5 1 e- 61\n\
         2 5 0 -- rest\n\
         2 3 1 -s 62\n\
         2 5 0 e- 62\n\
         3 5 1 -- rest\n\
         3 3 1 -s 63\n\
         3 6 0 e- 63\n",
    )
}

fn quarter_note() -> Piece {
    of_lines("480 1 3\n0 480 0\n151010368 134233088 100663296\n")
}

fn printed(piece: &Piece) -> Checked {
    prints(
        &clean(piece)?,
        "part 0 bars 1\n\
         bar 1 0 1920 4/4 - -\n\
         0 4 0 -- 60\n\
         0 3 1 -- rest\n",
    )
}

/// The automation of part 0 as (tick, word), in the order of its lists.
fn kept(piece: &Piece, want: &[(u64, u32)]) -> Checked {
    let import = reference::import(piece).map_err(|number| format!("refused {number}"))?;
    let lists = import.parts[0].automation.lists();
    let entries = lists.iter().copied().flatten();
    let kept: Vec<_> = entries.map(|entry| (entry.tick, entry.word)).collect();
    same("kept", &kept[..], want)
}

/// Ticks 0 and 1 at 961 per quarter are both 0 at 480, yet nothing is dropped.
fn source_ticks() -> Piece {
    of_lines("961 1 4\n0 0 1 0\n83886336 201327872 201393408 151010368\n")
}

fn two_kept(piece: &Piece) -> Checked {
    kept(piece, &[(0, 201_327_872), (0, 201_393_408)])
}

/// Each list alone is mirrored, but not the order across the lists.
fn across_kinds() -> Piece {
    of_lines("1 1 6\n0 0 0 0 0 0\n83886336 201327872 218105088 218170624 201393408 151010368\n")
}

fn four_kept(piece: &Piece) -> Checked {
    let words = [201_327_872, 201_393_408, 218_105_088, 218_170_624];
    kept(piece, &words.map(|word| (0, word)))
}

/// Standard MIDI Files 1.0, the worked file with one track.
fn format_0() -> Piece {
    let events = vec![
        meter(4, 2),
        TEMPO,
        program(0, 5),
        program(1, 46),
        program(2, 70),
        on(0, 2, 48, 96),
        on(0, 2, 60, 96),
        on(96, 1, 67, 64),
        on(96, 0, 76, 32),
        off(192, 2, 48),
        off(0, 2, 60),
        off(0, 1, 67),
        off(0, 0, 76),
        end(0),
    ];
    Piece::of_tracks(96, &[events])
}

fn one_part(piece: &Piece) -> Checked {
    let import = clean(piece)?;
    opening(&import)?;
    let part = &import.parts[0];
    same("part", (part.channel, part.program), (0, 5))?;
    kept(
        piece,
        &[program(0, 5), program(1, 46), program(2, 70)].map(|event| (0, event.1)),
    )?;
    prints(
        &import,
        "part 0 bars 1\n\
         bar 1 0 384 4/4 - -\n\
         0 2 0 -- 48,60\n\
         1 4 0 -- rest\n\
         1 3 1 -- 67\n\
         2 3 0 -- rest\n\
         2 3 0 -- 76\n",
    )
}

/// The same music in four tracks, notes ended by velocity 0.
fn format_1() -> Piece {
    let tracks = [
        vec![meter(4, 2), TEMPO, end(384)],
        vec![program(0, 5), on(192, 0, 76, 32), on(192, 0, 76, 0), end(0)],
        vec![program(1, 46), on(96, 1, 67, 64), on(288, 1, 67, 0), end(0)],
        vec![
            program(2, 70),
            on(0, 2, 48, 96),
            on(0, 2, 60, 96),
            on(384, 2, 48, 0),
            on(0, 2, 60, 0),
            end(0),
        ],
    ];
    Piece::of_tracks(96, &tracks)
}

fn three_parts(piece: &Piece) -> Checked {
    let import = clean(piece)?;
    opening(&import)?;
    let heads = import.parts.iter().map(|p| (p.channel, p.program));
    let heads: Vec<_> = heads.collect();
    same("parts", heads, vec![(0, 5), (1, 46), (2, 70)])?;
    prints(
        &import,
        "part 0 bars 1\n\
         bar 1 0 384 4/4 - -\n\
         0 3 0 -- rest\n\
         0 3 0 -- 76\n\
         part 1 bars 1\n\
         bar 1 0 384 4/4 - -\n\
         0 4 0 -- rest\n\
         0 3 1 -- 67\n\
         part 2 bars 1\n\
         bar 1 0 384 4/4 - -\n\
         0 2 0 -- 48,60\n",
    )
}

/// The head that both worked files have.
fn opening(import: &Import) -> Checked {
    let head = &import.head;
    same("head", (head.tempo, head.upper, head.lower), (120, 4, 4))?;
    same("key", head.key, None)
}
