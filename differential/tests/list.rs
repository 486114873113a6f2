//! The stored list is what the command makes, and it reaches what it should.

use differential::coverage::Report;
use differential::files::{classes::CLASSES, facts::Fact, tally::Tally};
use differential::list::{self, Calls, Changes};

/// The seed and the number of pieces and of files that docs/REPLAY.md names.
const SEED: u64 = 1;
const COUNT: u64 = 60_000;

/// So many changed staffs at least for each point and each of its reasons.
const STAFFS: usize = 3;
/// So many files at least of each class, and with each fact.
const FILES: u64 = 5;

#[test]
fn the_stored_list_is_the_command_s() {
    let stored = std::fs::read_to_string("../crates/replay/stdin").expect("the stored list");
    let (text, coverage) = list::of_seed(SEED, COUNT);
    assert!(stored == text, "`list {SEED} {COUNT}` makes another list");
    pieces_reach(&coverage.pieces);
    changes_reach(&coverage.changes);
    files_reach(&coverage.files, &coverage.calls);
    let written = std::fs::read_to_string("../crates/replay/stdout").expect("the stored output");
    let count = text.matches("\npiece ").count();
    let calls = coverage.calls.sum();
    assert_eq!(
        written,
        format!("{count} pieces, {calls} calls, 0 disagreements\n")
    );
}

fn pieces_reach(report: &Report) {
    for (fact, count) in report.facts() {
        assert!(count > 0, "no piece with: {fact}");
    }
    for (division, count) in report.divisions() {
        assert!(count > 0, "no piece with division {division}");
    }
    for (code, dots, count) in report.values() {
        assert!(count > 0, "no item of code {code} and {dots} dots");
    }
    for number in 1..=7 {
        assert!(report.refused(number) > 0, "no piece refused with {number}");
    }
}

/// Each point has staffs that get no by it alone, also long ones, and some changed staffs get yes.
fn changes_reach(changes: &Changes) {
    for (point, [_, alone, long]) in changes.points() {
        assert!(alone >= STAFFS, "{point}: {alone} staffs fail it alone");
        assert!(long >= STAFFS, "{point}: {long} long staffs");
    }
    for (reason, count) in changes.reasons() {
        assert!(count >= STAFFS, "{reason}: {count} staffs");
    }
    assert!(changes.yes() >= 100, "{} yes", changes.yes());
    assert!(changes.uneven() >= STAFFS, "{} uneven", changes.uneven());
}

fn files_reach(files: &Tally, calls: &Calls) {
    for (index, class) in CLASSES.iter().enumerate() {
        let count = files.class(index).sum();
        assert!(count >= FILES, "{count} files of class: {}", class.name);
    }
    for fact in Fact::ALL {
        let count = files.fact(fact);
        assert!(count >= FILES, "{count} files with {fact:?}");
    }
    for number in [0, 2, 5, 8, 12, 13] {
        assert!(calls.of("read", number) > 0, "no file read with {number}");
    }
}
