//! A small file of which something is still true.

use super::draft::heads;

/// How many smaller files are tried at most.
const MOST_TRIALS: usize = 20_000;

/// The file with runs of bytes taken away and bytes made 0 for as long as `differs` says yes.
pub fn smallest(file: &[u8], differs: impl Fn(&[u8]) -> bool) -> Vec<u8> {
    let mut small = Small {
        file: file.to_vec(),
        differs,
        trials: 0,
    };
    while small.drop_runs() | small.clear() {}
    small.file
}

struct Small<F> {
    file: Vec<u8>,
    differs: F,
    trials: usize,
}

impl<F: Fn(&[u8]) -> bool> Small<F> {
    /// Keeps another file if it still differs.
    fn try_with(&mut self, other: Vec<u8>) -> bool {
        if self.trials == MOST_TRIALS {
            return false;
        }
        self.trials += 1;
        let kept = (self.differs)(&other);
        if kept {
            self.file = other;
        }
        kept
    }

    /// The longest runs first.
    fn drop_runs(&mut self) -> bool {
        let mut changed = false;
        let mut run = self.file.len().next_power_of_two();
        while run > 0 {
            let mut from = 0;
            while from < self.file.len() {
                match self.drop_run(from, run) {
                    true => changed = true,
                    false => from += 1,
                }
            }
            run = if run > 16 { run / 2 } else { run - 1 };
        }
        changed
    }

    /// Alone, with the length of the chunk around it lessened, or with the header's count lessened.
    fn drop_run(&mut self, from: usize, run: usize) -> bool {
        let to = (from + run).min(self.file.len());
        let mut without = self.file.clone();
        without.drain(from..to);
        let head = heads(&self.file)
            .into_iter()
            .rfind(|&head| head + 8 <= from);
        let within = head.map(|head| (head + 4, 4, (to - from) as u32));
        let count = (from >= 14).then_some((10, 2, 1));
        [within, None, count].into_iter().any(|lessened| {
            let mut other = without.clone();
            if let Some((at, width, by)) = lessened {
                lessen(&mut other[at..at + width], by);
            }
            self.try_with(other)
        })
    }

    fn clear(&mut self) -> bool {
        let mut changed = false;
        for at in 0..self.file.len() {
            if self.file[at] > 0 {
                let mut other = self.file.clone();
                other[at] = 0;
                changed |= self.try_with(other);
            }
        }
        changed
    }
}

/// Takes from a number in big-endian bytes.
fn lessen(bytes: &mut [u8], by: u32) {
    let number = bytes
        .iter()
        .fold(0, |sum: u32, &byte| sum << 8 | u32::from(byte));
    let width = bytes.len();
    bytes.copy_from_slice(&number.wrapping_sub(by).to_be_bytes()[4 - width..]);
}
