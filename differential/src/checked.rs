//! What a check says: nothing, or what differs.

use std::fmt::Debug;

pub type Checked = Result<(), String>;

pub fn same<T: PartialEq + Debug>(what: &str, got: T, wanted: T) -> Checked {
    if got == wanted {
        return Ok(());
    }
    Err(format!("{what}: {got:?}, wanted {wanted:?}"))
}

/// Does what may fail an assertion of this package; then the piece's number is the error.
pub fn named<T>(seed: u64, index: u64, run: impl FnOnce() -> T) -> Result<T, String> {
    let run = std::panic::AssertUnwindSafe(run);
    std::panic::catch_unwind(run).map_err(|_| format!("at piece {seed} {index}"))
}
