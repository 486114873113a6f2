//! The library beside the reference, as far as a test's time goes; `compare` goes further.
#![cfg(feature = "library")]

use differential::{compare, files, generate, proofread};

#[test]
fn generated_pieces_agree() {
    for index in 0..2_000 {
        let piece = generate::numbered(1, index);
        assert_eq!(compare::piece(&piece), Ok(()), "piece 1 {index}");
    }
}

#[test]
fn proof_readers_agree() {
    let run = proofread::run::<proofread::Library>;
    assert_eq!(run(1, 20_000, u64::MAX), Ok(()));
}

#[test]
fn readers_of_files_agree() {
    assert_eq!(files::run(&files::LIBRARY, [1, 50_000, u64::MAX]), Ok(()));
}
