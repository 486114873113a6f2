//! What every call must leave behind, whatever it was given.

use super::call::{Call, Outcome, Output};
use crate::checked::{Checked, same};

/// A number that the call may give, or a result; beside a number no other field and no output has
/// changed. Outputs keep what stands behind the list, work is zero, nothing is written beside an array.
pub fn outcome(call: Call, outcome: &Outcome) -> Checked {
    let Outcome { number, fields, .. } = outcome;
    let lengths = match number {
        0 => call.lengths(fields),
        _ if !call.numbers().contains(number) => {
            return Err(format!("number {number}, which the call never gives"));
        }
        _ if fields.iter().any(|field| *field != 0) => {
            return Err(format!("fields {fields:?} beside number {number}"));
        }
        _ => vec![0; outcome.outputs.len()],
    };
    same("outputs", outcome.outputs.len(), lengths.len())?;
    for (index, (output, length)) in outcome.outputs.iter().zip(lengths).enumerate() {
        let what = format!("output {index}");
        match output {
            Output::Words(words) => words.written(&what, length)?,
            Output::Longs(longs) => longs.written(&what, length)?,
        }
    }
    outcome.work.cleared("work")
}
