//! The real files of ../../shared/real, which stay there.

use super::entries::Entries;
use super::tally::Counts;
use super::{check, reader};
use crate::checked::{Checked, same};
use crate::piece::Piece;
use crate::refusals;
use std::fs;

const FOLDER: &str = concat!(env!("CARGO_MANIFEST_DIR"), "/../../shared/real");

/// A file's name and bytes.
pub type Named = (String, Vec<u8>);

/// The files, in the order of their list.
pub fn files() -> Result<Vec<Named>, String> {
    let list = text("INDEX.tsv")?;
    let names = list.lines().filter_map(|line| line.split('\t').next());
    names
        .map(|name| Ok((name.to_string(), open(name)?)))
        .collect()
}

fn open(name: &str) -> Result<Vec<u8>, String> {
    fs::read(format!("{FOLDER}/{name}")).map_err(|error| format!("../shared/real/{name}: {error}"))
}

fn text(name: &str) -> Result<String, String> {
    String::from_utf8(open(name)?).map_err(|error| format!("../shared/real/{name}: {error}"))
}

/// The same files as pieces.
pub fn pieces() -> Result<Vec<Piece>, String> {
    let text = text("pieces.txt")?;
    let lines: Vec<_> = text.lines().collect();
    let pieces = lines.chunks(3).map(|three| Piece::parse(&three.join("\n")));
    pieces
        .collect::<Option<_>>()
        .ok_or("../shared/real/pieces.txt: no pieces".to_string())
}

/// Each file gives its piece, or the number by which 1 to 5 turn its piece back.
pub fn run(asked: &Entries) -> Checked {
    let (files, pieces) = (files()?, pieces()?);
    same("pieces of real files", pieces.len(), files.len())?;
    let mut counts = Counts::default();
    for ((name, bytes), piece) in files.iter().zip(pieces) {
        let answer = admitted(piece);
        if reader::read(bytes) != answer {
            return Err(format!("{name}: the second reader answers otherwise"));
        }
        check::answer(asked, bytes, &answer).map_err(|what| format!("{name}: {what}"))?;
        if let Err(number) = answer {
            println!("{name}: refused {number}, as its piece is");
        }
        counts.add(&answer);
    }
    let (count, read) = (counts.sum(), counts.of(0));
    let name = asked.name;
    println!(
        "{name}: {count} real files, {read} give their pieces, the others their pieces' numbers"
    );
    Ok(())
}

fn admitted(piece: Piece) -> Result<Piece, u32> {
    match refusals::admission(&piece) {
        Some(number) => Err(number.into()),
        None => Ok(piece),
    }
}
