//! Outcomes that a faulty library would leave, each of which the check must see.

use super::call::{Call, Outcome, Output, Rooms};
use super::{check, run};
use crate::library::{Given, GivenStaff, Lent};
use crate::packed::Staff;
use crate::piece::Piece;

/// An engraving of one bar and two items with a little room behind, all of it right.
fn answered() -> Outcome {
    let mut outcome = Outcome {
        number: 0,
        fields: vec![1, 2],
        outputs: vec![
            Output::Words(Lent::new(6)),
            Output::Words(Lent::new(3)),
            Output::Longs(Lent::new(4)),
            Output::Words(Lent::new(5)),
        ],
        work: Lent::new(9),
    };
    words(&mut outcome, 0).elements_mut()[..4].fill(1);
    words(&mut outcome, 1).elements_mut()[..2].fill(1);
    keys(&mut outcome).elements_mut().fill(1);
    words(&mut outcome, 3).elements_mut()[..4].fill(1);
    outcome.work.elements_mut().fill(0);
    outcome
}

/// The same call refused.
fn refused(number: u32) -> Outcome {
    let outputs = vec![
        Output::Words(Lent::new(6)),
        Output::Words(Lent::new(0)),
        Output::Longs(Lent::new(4)),
        Output::Words(Lent::new(3)),
    ];
    let fields = vec![0, 0];
    Outcome {
        number,
        fields,
        outputs,
        ..answered()
    }
}

fn words(outcome: &mut Outcome, index: usize) -> &mut Lent<u32> {
    match &mut outcome.outputs[index] {
        Output::Words(words) => words,
        Output::Longs(_) => panic!("output {index} has u64"),
    }
}

fn keys(outcome: &mut Outcome) -> &mut Lent<u64> {
    match &mut outcome.outputs[2] {
        Output::Longs(longs) => longs,
        Output::Words(_) => panic!("keys are u64"),
    }
}

#[track_caller]
fn reported(mut outcome: Outcome, spoil: impl FnOnce(&mut Outcome), wanted: &str) {
    assert_eq!(check::outcome(Call::Engrave, &outcome), Ok(()));
    spoil(&mut outcome);
    let what = check::outcome(Call::Engrave, &outcome).expect_err("nothing is reported");
    assert!(what.contains(wanted), "{what}");
}

#[test]
fn numbers() {
    reported(refused(8), |it| it.number = 9, "never gives");
    reported(refused(8), |it| it.number = u32::MAX, "never gives");
    for (call, number) in [
        (Call::Head, 7),
        (Call::Bars, 7),
        (Call::Diagnostics, 6),
        (Call::PartHead, 8),
        (Call::ProofRead, 10),
    ] {
        let outcome = refused(number);
        let what = check::outcome(call, &outcome).expect_err("nothing is reported");
        assert!(what.contains("never gives"), "{call:?} {number}: {what}");
    }
}

#[test]
fn fields() {
    reported(refused(7), |it| it.fields[1] = 1, "beside number 7");
    reported(answered(), |it| it.fields[1] = 3, "output 2: 6 elements");
    reported(answered(), |it| it.fields[0] = u64::MAX, "elements");
}

#[test]
fn outputs() {
    reported(
        refused(8),
        |it| words(it, 0).elements_mut()[0] = 0,
        "output 0: element 0",
    );
    reported(
        refused(1),
        |it| keys(it).elements_mut()[3] = 0,
        "output 2: element 3",
    );
    reported(
        answered(),
        |it| words(it, 0).elements_mut()[4] = 0,
        "output 0: element 4",
    );
    reported(
        answered(),
        |it| words(it, 1).elements_mut()[2] = 0,
        "output 1: element 2",
    );
    reported(
        refused(8),
        |it| words(it, 3).elements_mut()[0] = 0,
        "output 3: element 0",
    );
    reported(
        answered(),
        |it| words(it, 3).elements_mut()[4] = 0,
        "output 3: element 4",
    );
}

/// Room for less than is answered: 4 × bars are due.
#[test]
fn leftovers_room() {
    reported(
        answered(),
        |it| it.outputs[3] = Output::Words(Lent::new(3)),
        "output 3: 4 elements, where 3 were lent",
    );
}

#[test]
fn work() {
    reported(
        answered(),
        |it| it.work.elements_mut()[8] = 1,
        "work: element 8",
    );
    reported(refused(5), |it| it.work = Lent::new(9), "work: element 0");
}

#[test]
fn canaries() {
    for end in [0, 1] {
        reported(
            answered(),
            |it| words(it, 0).spoil_canary(end),
            "output 0: written beside",
        );
        reported(
            refused(8),
            |it| words(it, 1).spoil_canary(end),
            "output 1: written beside",
        );
        reported(
            refused(3),
            |it| keys(it).spoil_canary(end),
            "output 2: written beside",
        );
        reported(
            answered(),
            |it| words(it, 3).spoil_canary(end),
            "output 3: written beside",
        );
        reported(
            answered(),
            |it| it.work.spoil_canary(end),
            "work: written beside",
        );
    }
}

#[test]
fn inputs() {
    let piece = Piece::of_tracks(480, &[vec![(0, 1 << 24)]]);
    for end in [0, 1] {
        for index in 0..3 {
            let mut given = Given::of(&piece);
            assert_eq!(given.holds(&piece), Ok(()));
            given.arrays_mut()[index].spoil_canary(end);
            assert!(
                given.holds(&piece).is_err(),
                "canary {end} of array {index}"
            );
        }
    }
    for index in 0..3 {
        let mut given = Given::of(&piece);
        given.arrays_mut()[index].elements_mut()[0] ^= 1;
        assert!(given.holds(&piece).is_err(), "array {index}");
    }
}

/// The library's own outcome passes, and no longer when its number is another.
#[test]
fn library() {
    let given = Given::of(&Piece::of_tracks(480, &[]));
    let mut outcome = Call::Bars.ask(
        &given,
        0,
        &GivenStaff::of(&Staff::default()),
        &Rooms {
            outputs: vec![2, 0],
            work: 0,
        },
    );
    assert_eq!(outcome.number, 6);
    assert_eq!(check::outcome(Call::Bars, &outcome), Ok(()));
    outcome.number = 7;
    assert!(check::outcome(Call::Bars, &outcome).is_err());
    assert_eq!(run(1, 2_000, u64::MAX), Ok(()));
}
