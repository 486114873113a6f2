//! The length of every written value and the spelling of every key, with numbers out of range.

use crate::checked::{Checked, same};
use crate::library::{self, Beats, Spelling};
use crate::reference;

/// The steps by their numbers.
const STEPS: &str = "CDEFGAB";

pub fn all() -> Checked {
    for code in (0..=260).chain([u32::MAX]) {
        for dots in (0..=260).chain([u32::MAX]) {
            same(
                &format!("beats of {code} {dots}"),
                library::beats(code, dots),
                beats(code, dots),
            )?;
        }
    }
    for key in (0..=70_000).chain([u32::MAX]) {
        same(
            &format!("spelling of {key}"),
            library::spelling(key),
            spelling(key),
        )?;
    }
    Ok(())
}

/// What does not fit a byte is out of range all the more.
fn byte(number: u32) -> u8 {
    u8::try_from(number).unwrap_or(u8::MAX)
}

fn beats(code: u32, dots: u32) -> Beats {
    match reference::beats(byte(code), byte(dots)) {
        Ok(beats) => Beats { number: 0, beats },
        Err(number) => Beats {
            number: number.into(),
            beats: 0.0,
        },
    }
}

fn spelling(key: u32) -> Spelling {
    match reference::spelling(byte(key)) {
        Ok(spelled) => Spelling {
            number: 0,
            step: STEPS.find(spelled.step).expect("a step") as u32,
            octave: spelled.octave.into(),
            alter: spelled.alter.into(),
        },
        Err(number) => Spelling {
            number: number.into(),
            ..Spelling::default()
        },
    }
}
