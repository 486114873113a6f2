//! How a key is spelled: document 01, section 7, read from the paper and not from the Rust.

use crate::answers::Spelled;

const STEPS: [(char, i8); 12] = [
    ('C', 0),
    ('C', 1),
    ('D', 0),
    ('D', 1),
    ('E', 0),
    ('F', 0),
    ('F', 1),
    ('G', 0),
    ('G', 1),
    ('A', 0),
    ('A', 1),
    ('B', 0),
];

/// With sharps, octave key/12 − 1.
pub fn of_key(key: u8) -> Spelled {
    let (step, alter) = STEPS[usize::from(key % 12)];
    Spelled {
        step,
        octave: (key / 12) as i8 - 1,
        alter,
    }
}
