//! The run beside a stand-in for the library: what it reaches, and that it sees faults.

use differential::packed::{self, Staff};
use differential::piece::Piece;
use differential::proofread::{Asked, Run};
use differential::reader::{self, Part, Point};
use differential::{reference, refusals};
use std::marker::PhantomData;

/// The reference's staffs and the plain reader's answers.
struct StandIn {
    piece: Piece,
    parts: Vec<Part>,
    staffs: Vec<Staff>,
}

impl Asked for StandIn {
    fn about(piece: &Piece) -> Self {
        let import = reference::import(piece).ok();
        let bars = import.as_ref().map(|import| packed::bars(&import.bars));
        Self {
            piece: piece.clone(),
            parts: bars.map_or(vec![], |bars| reader::parts(piece, &bars)),
            staffs: import.as_ref().map_or(vec![], packed::staffs),
        }
    }

    fn engraved(&self, part: u32) -> Result<Staff, String> {
        Ok(self.staffs[part as usize].clone())
    }

    fn reading(&self, part: u32, staff: &Staff, work: usize) -> Result<[u32; 2], String> {
        Ok(match refusals::part(&self.piece, part) {
            Some(number) => [number.into(), 0],
            None if work < refusals::work(&self.piece) => [8, 0],
            None => reader::read(&self.parts[part as usize], staff).numbers(),
        })
    }
}

#[test]
fn pieces_reach_every_point() {
    let mut run = Run::new(1);
    for _ in 0..2_000 {
        assert_eq!(run.next::<StandIn>(), Ok(()));
    }
    println!("{}", run.tally);
    let staffs = run.tally.staffs();
    let (yes, no) = run.tally.answers();
    assert!(yes * 10 >= staffs, "{yes} of {staffs}");
    assert!(yes * 10 <= staffs * 4, "{yes} of {staffs}");
    for (point, count) in Point::ALL.into_iter().zip(no) {
        assert!(count * 100 >= staffs, "{point:?}: {count} of {staffs}");
    }
}

/// What a faulty library does otherwise.
trait Fault {
    fn engraves(_: &mut Staff) {}

    /// What it sees of a staff.
    fn sees(_: &mut Staff) {}

    /// What it answers where the right answer is this.
    fn answers(right: [u32; 2]) -> [u32; 2] {
        right
    }
}

struct Faulty<F>(StandIn, PhantomData<F>);

impl<F: Fault> Asked for Faulty<F> {
    fn about(piece: &Piece) -> Self {
        Self(StandIn::about(piece), PhantomData)
    }

    fn engraved(&self, part: u32) -> Result<Staff, String> {
        let mut staff = self.0.engraved(part)?;
        F::engraves(&mut staff);
        Ok(staff)
    }

    fn reading(&self, part: u32, staff: &Staff, work: usize) -> Result<[u32; 2], String> {
        let mut seen = staff.clone();
        F::sees(&mut seen);
        Ok(F::answers(self.0.reading(part, &seen, work)?))
    }
}

/// Declares a fault of the answers and what is said of it.
macro_rules! answers {
    ($name:ident, $from:pat => $to:expr, $said:literal) => {
        #[test]
        fn $name() {
            struct Here;
            impl Fault for Here {
                fn answers(right: [u32; 2]) -> [u32; 2] {
                    match right {
                        $from => $to,
                        _ => right,
                    }
                }
            }
            is_seen::<Here>($said);
        }
    };
}

/// The fault shows within some pieces, and is said with a piece and a staff.
fn is_seen<F: Fault>(said: &str) {
    let mut run = Run::new(2);
    let fault = (0..300).find_map(|_| run.next::<Faulty<F>>().err());
    let what = fault.expect("nothing is seen");
    assert!(what.contains(said), "{what}");
    for part in [
        "piece 2 ",
        "\nsmallest:\n",
        "\ncounts [",
        "\nheads [",
        "\nkeys [",
    ] {
        assert!(what.contains(part), "{what}");
    }
}

answers!(always_yes, [0, 0] => [0, 1], "[0, 1], wanted [0, 0]");
answers!(always_no, [0, 1] => [0, 0], "as engraved, to the plain reader Yes");
answers!(uneven_gets_no, [9, 0] => [0, 0], "as engraved, to the plain reader Uneven");
answers!(too_short_gets_yes, [8, 0] => [0, 1], "[0, 1], wanted [8, 0]");
answers!(no_part_gets_no, [7, 0] => [0, 0], "[0, 0], wanted [7, 0]");
answers!(yes_beside_a_number, [6, 0] => [6, 1], "[6, 1], wanted [6, 0]");

#[test]
fn unseen_marks() {
    struct Here;
    impl Fault for Here {
        fn sees(staff: &mut Staff) {
            staff.heads.iter_mut().for_each(|head| *head &= !(1 << 7));
        }
    }
    is_seen::<Here>("to the plain reader No(Ties)");
}

#[test]
fn unseen_bits() {
    struct Here;
    impl Fault for Here {
        fn sees(staff: &mut Staff) {
            staff.heads.iter_mut().for_each(|head| *head &= 0x1ff);
        }
    }
    is_seen::<Here>("to the plain reader No(Malformed)");
}

#[test]
fn unseen_key() {
    struct Here;
    impl Fault for Here {
        fn sees(staff: &mut Staff) {
            let first = staff.keys.iter_mut().step_by(2);
            first.for_each(|keys| *keys &= !1);
        }
    }
    is_seen::<Here>("to the plain reader");
}

#[test]
fn wrong_staff() {
    struct Here;
    impl Fault for Here {
        fn engraves(staff: &mut Staff) {
            staff.heads[0] ^= 1 << 4;
        }
    }
    is_seen::<Here>("as engraved: plain reader: No(Full), wanted Yes");
}
