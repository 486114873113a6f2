//! The printing programs' pages, byte by byte against the reference's text.

use crate::checked::{Checked, same};
use crate::files::{reader, real};
use crate::piece::Piece;
use crate::{generate, reference, text};
use std::collections::BTreeMap;
use std::fmt::{Display, Formatter};
use std::io::{self, Write};
use std::process::{Command, Output, Stdio};
use std::time::{Duration, Instant};

const FOLDER: &str = concat!(env!("CARGO_MANIFEST_DIR"), "/../crates");

/// One program's runs.
struct Pages {
    program: &'static str,
    pieces: usize,
    lines: usize,
    bytes: usize,
    /// By number.
    refused: BTreeMap<String, usize>,
    slowest: Duration,
    slowest_name: String,
}

/// Both programs on the real pieces: `print` on their texts, `print_file` on the files.
pub fn real() -> Checked {
    let (files, pieces) = (real::files()?, real::pieces()?);
    same("pieces of real files", pieces.len(), files.len())?;
    let mut of_texts = Pages::of("print");
    let mut of_files = Pages::of("print_file");
    for ((name, bytes), piece) in files.iter().zip(&pieces) {
        of_texts.compare(name, piece.print().as_bytes(), &page(piece))?;
        let wanted = match reader::read(bytes) {
            Ok(piece) => page(&piece),
            Err(number) => format!("refused {number}\n"),
        };
        of_files.compare(name, bytes, &wanted)?;
    }
    print!("{of_texts}{of_files}");
    Ok(())
}

/// `print` on the first pieces of a seed.
pub fn generated(seed: u64, count: u64) -> Checked {
    let mut pages = Pages::of("print");
    for index in 0..count {
        let piece = generate::numbered(seed, index);
        let name = format!("piece {seed} {index}");
        pages.compare(&name, piece.print().as_bytes(), &page(&piece))?;
    }
    print!("{pages}");
    Ok(())
}

fn page(piece: &Piece) -> String {
    text::print(&reference::import(piece))
}

impl Pages {
    fn of(program: &'static str) -> Self {
        Self {
            program,
            pieces: 0,
            lines: 0,
            bytes: 0,
            refused: BTreeMap::new(),
            slowest: Duration::ZERO,
            slowest_name: String::new(),
        }
    }

    /// Runs the program and counts; an error where it prints anything else, or leaves with another status than 0.
    fn compare(&mut self, name: &str, input: &[u8], wanted: &str) -> Checked {
        let program = self.program;
        let begun = Instant::now();
        let output = run(program, input)?;
        let time = begun.elapsed();
        if output.stdout != wanted.as_bytes() {
            let differs = difference(&output.stdout, wanted.as_bytes());
            return Err(format!("{program}, {name}: {differs}"));
        }
        if !output.status.success() {
            return Err(format!("{program}, {name}: {}", output.status));
        }
        self.pieces += 1;
        self.lines += wanted.lines().count();
        self.bytes += wanted.len();
        if let Some(number) = wanted.strip_prefix("refused ") {
            let number = number.trim_end().to_string();
            *self.refused.entry(number).or_default() += 1;
        }
        if time > self.slowest {
            (self.slowest, self.slowest_name) = (time, name.to_string());
        }
        Ok(())
    }
}

/// What a program makes of an input.
fn run(program: &str, input: &[u8]) -> Result<Output, String> {
    let whole = || -> io::Result<Output> {
        let mut child = Command::new(format!("{FOLDER}/{program}/out/{program}"))
            .stdin(Stdio::piped())
            .stdout(Stdio::piped())
            .spawn()?;
        let mut stdin = child.stdin.take().expect("a pipe");
        std::thread::scope(|scope| {
            // A program that stops reading early is judged by what it prints.
            scope.spawn(move || drop(stdin.write_all(input)));
            child.wait_with_output()
        })
    };
    whole().map_err(|error| {
        format!("../crates/{program}/out/{program}: {error} (`rt run` in crates/{program} builds it)")
    })
}

/// The first line that differs, in both.
fn difference(printed: &[u8], wanted: &[u8]) -> String {
    let lines = |text| {
        let text = String::from_utf8_lossy(text).into_owned();
        text.split_inclusive('\n')
            .map(str::to_string)
            .collect::<Vec<_>>()
    };
    let (printed, wanted) = (lines(printed), lines(wanted));
    let alike = printed.iter().zip(&wanted).take_while(|(a, b)| a == b);
    let at = alike.count();
    let line = |lines: &[String]| format!("{:?}", lines.get(at).map_or("", |line| line));
    let (printed, wanted) = (line(&printed), line(&wanted));
    format!("line {} is {printed}, wanted {wanted}", at + 1)
}

impl Display for Pages {
    fn fmt(&self, out: &mut Formatter) -> std::fmt::Result {
        let Self {
            program,
            pieces,
            lines,
            bytes,
            ..
        } = self;
        writeln!(
            out,
            "{program}: {pieces} pieces compared, all alike, {lines} lines, {bytes} bytes"
        )?;
        for (number, count) in &self.refused {
            writeln!(out, "  refused {number}: {count}")?;
        }
        let seconds = self.slowest.as_secs_f64();
        writeln!(out, "  slowest run {seconds:.3} s, {}", self.slowest_name)
    }
}

#[cfg(test)]
mod tests {
    use super::difference;

    #[test]
    fn the_first_line_that_differs() {
        let differs = |printed: &str| difference(printed.as_bytes(), b"part 0\nbar 1\n");
        let line = |number, printed: &str, wanted: &str| {
            format!("line {number} is {printed:?}, wanted {wanted:?}")
        };
        assert_eq!(differs("part 1\nbar 1\n"), line(1, "part 1\n", "part 0\n"));
        assert_eq!(differs("part 0\nbar 1"), line(2, "bar 1", "bar 1\n"));
        assert_eq!(differs("part 0\n"), line(2, "", "bar 1\n"));
        assert_eq!(differs("part 0\nbar 1\n0"), line(3, "0", ""));
        assert_eq!(differs(""), line(1, "", "part 0\n"));
    }
}
