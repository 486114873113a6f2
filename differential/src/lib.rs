//! The Rust reference of the MIDI import, compiled as it stands, and what is needed to run it
//! beside another import: pieces, answers, refusals and a generator.

pub mod answers;
#[cfg(feature = "library")]
pub mod arbitrary;
#[cfg(feature = "library")]
pub mod bench;
pub mod checked;
pub mod clock;
#[cfg(feature = "library")]
pub mod compare;
pub mod coverage;
pub mod examples;
pub mod files;
pub mod generate;
pub mod leftovers;
pub mod lent;
#[cfg(feature = "library")]
pub mod library;
pub mod list;
pub mod mutate;
pub mod packed;
pub mod pages;
pub mod piece;
pub mod proofread;
pub mod reader;
pub mod reference;
pub mod refusals;
pub mod shrink;
pub mod spelling;
pub mod staffs;
pub mod text;
