//! Written values: section 6.

/// "Codes 0–9: longa 16p, then halving." The length as a fraction; a dot is half as much again.
fn fraction(code: u32, dotted: bool, quarter: u64) -> (u64, u64) {
    match dotted {
        true => (16 * quarter * 3, 2 << code),
        false => (16 * quarter, 1 << code),
    }
}

/// "Staffs use codes 0–8 with 0 or 1 dot, and only where the length is a whole number of ticks."
pub fn length(code: u32, dotted: bool, quarter: u64) -> Option<u64> {
    let (upper, lower) = fraction(code, dotted, quarter);
    (code <= 8 && upper % lower == 0).then_some(upper / lower)
}

/// The whole ticks of any value, also of one that staffs do not use.
pub fn ticks(code: u32, dotted: bool, quarter: u64) -> u64 {
    let (upper, lower) = fraction(code, dotted, quarter);
    upper / lower
}

/// "The smallest written value is p / 2^m, m the smaller of 4 and the twos in p."
pub fn smallest(quarter: u64) -> u64 {
    quarter >> quarter.trailing_zeros().min(4)
}
