//! The generator is deterministic and reaches what it should.

use differential::coverage::Report;
use differential::generate::{self, Random};
use differential::piece::Piece;
use differential::refusals;

#[test]
fn the_same_seed_gives_the_same_answers() {
    let first = Report::of_seed(7, 2_000);
    assert_eq!(first, Report::of_seed(7, 2_000));
    assert_ne!(first.checksum(), Report::of_seed(8, 2_000).checksum());
}

#[test]
fn every_fact_is_reached() {
    let report = Report::of_seed(1, 6_000);
    for (fact, count) in report.facts() {
        assert!(count > 0, "no piece with: {fact}");
    }
    for (division, count) in report.divisions() {
        assert!(count > 0, "no piece with division {division}");
    }
    for (code, dots, count) in report.values() {
        assert!(count > 0, "no item of code {code} and {dots} dots");
    }
    for number in [1, 2, 3, 4, 5, 6, 7] {
        assert!(report.refused(number) > 0, "no piece refused with {number}");
    }
}

#[test]
fn whole_pieces_pass_admission() {
    let mut random = Random::new(3);
    for _ in 0..3_000 {
        assert_eq!(refusals::admission(&generate::piece(&mut random)), None);
    }
}

#[test]
fn text_and_arrays_are_one() {
    for index in 0..1_000 {
        let piece = generate::numbered(5, index);
        assert_eq!(Piece::parse(&piece.print()), Some(piece));
    }
}
