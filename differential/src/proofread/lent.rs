//! The library, with every array lent between canaries.

use super::Asked;
use crate::checked::same;
use crate::library::{self, Given, GivenStaff, Lent};
use crate::packed::Staff;
use crate::piece::Piece;
use crate::refusals;

pub struct Library {
    piece: Piece,
    given: Given,
}

impl Asked for Library {
    fn about(piece: &Piece) -> Self {
        Self {
            piece: piece.clone(),
            given: Given::of(piece),
        }
    }

    fn engraved(&self, part: u32) -> Result<Staff, String> {
        let mut work = Lent::new(refusals::work(&self.piece));
        let size = library::staff_size(&self.given, part, &mut work);
        same("number of the staff's size", size.number, 0)?;
        let (mut counts, mut heads) = (Lent::new(4 * size.bars), Lent::new(size.items));
        let (mut keys, mut leftovers) = (Lent::new(2 * size.items), Lent::new(4 * size.bars));
        let (c, h, k, l) = (&mut counts, &mut heads, &mut keys, &mut leftovers);
        let staff = library::engrave(&self.given, part, c, h, k, l, &mut work);
        same("staff", staff, size)?;
        counts.written("item counts", 4 * size.bars)?;
        heads.written("item heads", size.items)?;
        keys.written("item keys", 2 * size.items)?;
        leftovers.written("leftovers", 4 * size.bars)?;
        Ok(Staff {
            counts: counts.elements().to_vec(),
            heads: heads.elements().to_vec(),
            keys: keys.elements().to_vec(),
        })
    }

    /// The arrays given stay as they are, and the work area is zero behind.
    fn reading(&self, part: u32, staff: &Staff, work: usize) -> Result<[u32; 2], String> {
        let given = GivenStaff::of(staff);
        let mut work = Lent::new(work);
        let reading = library::proof_read(&self.given, part, &given, &mut work);
        work.cleared("work after proof-reading")?;
        given.holds(staff)?;
        self.given.holds(&self.piece)?;
        Ok([reading.number, reading.right])
    }
}
