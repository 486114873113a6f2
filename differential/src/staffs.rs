//! The staffs of a generated piece, as engraved and changed, with the plain proof-reader's answers as text.
//!
//! ```text
//! refused NUMBER
//! work WORDS
//! staff PART number NUMBER right 0|1 point POINT change KIND
//! counts N ..
//! heads N ..
//! keys N ..
//! ```
//!
//! A piece that 1 to 6 turn back has the first line alone. The others have the words that a work area needs, and four lines
//! for each staff: part by part the engraved one, whose change is `none`, and behind it the changed ones. `right` is 1 for
//! yes; POINT is the first that fails, `-` where none does or the number is 9. The arrays are decimals.

use crate::mutate::{self, KINDS, Sources};
use crate::packed::{self, Staff};
use crate::reader::{self, Answer, Part};
use crate::{generate, proofread, reference, refusals};

/// The text for piece number `index` of a seed, with so many changed staffs of each part. They are changed by the random
/// numbers of `proofread`, and the other piece's staff is, as there, the first of the piece before.
pub fn text(seed: u64, index: u64, changes: u64) -> String {
    let piece = generate::numbered(seed, index);
    let import = match reference::import(&piece) {
        Ok(import) => import,
        Err(number) => return format!("refused {number}\n"),
    };
    let staffs = packed::staffs(&import);
    let another = before(seed, index);
    let mut random = proofread::random(seed, index);
    let mut out = format!("work {}\n", refusals::work(&piece));
    let parts = reader::parts(&piece, &packed::bars(&import.bars));
    for (number, part) in parts.iter().enumerate() {
        out += &read(number, part, "none", &staffs[number]);
        let sources = Sources {
            staffs: &staffs,
            part: number,
            another: &another,
        };
        for _ in 0..changes {
            let (kind, staff) = mutate::some(&mut random, &sources);
            out += &read(number, part, KINDS[kind].name, &staff);
        }
    }
    out
}

/// The first staff of the piece before; no staff where there is none.
fn before(seed: u64, index: u64) -> Staff {
    let piece = index
        .checked_sub(1)
        .map(|index| generate::numbered(seed, index));
    let import = piece.and_then(|piece| reference::import(&piece).ok());
    let staffs = import.map_or(vec![], |import| packed::staffs(&import));
    staffs.into_iter().next().unwrap_or_default()
}

/// The four lines of a staff.
fn read(number: usize, part: &Part, change: &str, staff: &Staff) -> String {
    let answer = reader::read(part, staff);
    let [refused, right] = answer.numbers();
    let point = match answer {
        Answer::No(point) => format!("{point:?}"),
        Answer::Uneven | Answer::Yes => "-".to_string(),
    };
    format!(
        "staff {number} number {refused} right {right} point {point} change {change}\n{}{}{}",
        line("counts", &staff.counts),
        line("heads", &staff.heads),
        line("keys", &staff.keys)
    )
}

fn line(name: &str, numbers: &[impl ToString]) -> String {
    let numbers = numbers
        .iter()
        .map(|number| format!(" {}", number.to_string()));
    format!("{name}{}\n", numbers.collect::<String>())
}
