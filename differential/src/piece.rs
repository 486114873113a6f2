//! A piece: document 01, section 1.

/// The three arrays. Nothing is checked here; see `refusals`.
#[derive(Debug, Clone, Default, PartialEq, Eq)]
pub struct Piece {
    pub sizes: Vec<u32>,
    pub deltas: Vec<u32>,
    pub words: Vec<u32>,
}

impl Piece {
    /// A piece of whole tracks, each a list of (delta, word).
    pub fn of_tracks(division: u32, tracks: &[Vec<(u32, u32)>]) -> Self {
        let mut sizes = vec![division, tracks.len() as u32];
        sizes.extend(tracks.iter().map(|track| track.len() as u32));
        Self {
            sizes,
            deltas: tracks.iter().flatten().map(|event| event.0).collect(),
            words: tracks.iter().flatten().map(|event| event.1).collect(),
        }
    }

    /// Reads three lines of decimals; `None` where the text is not that.
    pub fn parse(text: &str) -> Option<Self> {
        let mut lines = text.lines().map(numbers);
        let piece = Self {
            sizes: lines.next()??,
            deltas: lines.next()??,
            words: lines.next()??,
        };
        lines.next().is_none().then_some(piece)
    }

    /// The three lines that `parse` reads.
    pub fn print(&self) -> String {
        let line = |numbers: &[u32]| {
            let words: Vec<_> = numbers.iter().map(u32::to_string).collect();
            words.join(" ") + "\n"
        };
        line(&self.sizes) + &line(&self.deltas) + &line(&self.words)
    }

    /// The tracks of a piece whose sizes agree: each the (delta, word) of its events.
    pub fn tracks(&self) -> Vec<Vec<(u32, u32)>> {
        let mut events = self.deltas.iter().copied().zip(self.words.iter().copied());
        self.sizes[2..]
            .iter()
            .map(|&count| events.by_ref().take(count as usize).collect())
            .collect()
    }

    /// Ticks per quarter; timecode counts as 480.
    pub fn ticks_per_quarter(&self) -> u64 {
        match self.sizes[0] {
            division if division & 0x8000 != 0 => 480,
            division => u64::from(division),
        }
    }
}

/// Packs a word: kind, a, b, c from the top.
pub fn word(kind: u8, a: u8, b: u8, c: u8) -> u32 {
    u32::from_be_bytes([kind, a, b, c])
}

/// A note-on above velocity 0.
pub fn sounds(word: u32) -> bool {
    let [kind, _, _, velocity] = word.to_be_bytes();
    kind == 9 && velocity > 0
}

fn numbers(line: &str) -> Option<Vec<u32>> {
    line.split_ascii_whitespace()
        .map(|word| {
            let decimal = word.bytes().all(|byte| byte.is_ascii_digit());
            decimal.then(|| word.parse().ok()).flatten()
        })
        .collect()
}
