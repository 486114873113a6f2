//! Times of the library's reader beside those of the plain scanner.

use super::entries::{Entries, Outputs, PieceSize, SCANNER};
use super::large::TIMED;
use super::reader::MOST_EVENTS;
use super::real;
use crate::clock;
use crate::lent::Lent;
use std::time::{Duration, Instant};

const ABOUT: &str = "\
Files read. Milliseconds of the thread's own CPU time, the median of seven runs or more, for half a second; arrays lent
once and warm. `size` is read_size and `read` is read; `both` is one after the other, as a caller calls them, of files
that are read.
The scanner is scanner/scan.c, gcc -O3: its size is one pass that walks, checks and counts; its read is that pass and one
that writes. Ratios are library over scanner: size over size, read over read, and both over the scanner's read, which
counts once and writes once. Refused files have a number; they are walked as far as the rules ask.";

const BOUNDS: &str = "\
Bounds: size over size and read over read at most 2; 500,000 events in less than 10 ms where they are like music; any
file in less than 500 ms. By chance, where every status and length is drawn anew, the scanner takes longer than 10 ms.";

const BY_CHANCE: &str = "by chance";

const LEAST_RUNS: usize = 7;
const GOING_ON: Duration = Duration::from_millis(500);

/// A row: one file, or several that are read one after the other.
struct Row {
    name: String,
    files: Vec<Lent<u8>>,
    /// What the first file gets.
    number: u32,
    /// Of all files.
    events: usize,
}

impl Row {
    fn of<'a>(name: String, files: impl IntoIterator<Item = &'a Vec<u8>>) -> Self {
        let files: Vec<_> = files.into_iter().map(|file| Lent::of(file)).collect();
        let sizes: Vec<_> = files.iter().map(|file| SCANNER.size(file)).collect();
        Self {
            name,
            files,
            number: sizes[0].number,
            events: sizes.iter().map(|size| size.events).sum(),
        }
    }
}

/// What is timed of one reader.
#[derive(Default)]
struct Times {
    size: Vec<f64>,
    read: Vec<f64>,
}

impl Times {
    fn median(times: &mut [f64]) -> f64 {
        times.sort_by(f64::total_cmp);
        times[times.len() / 2]
    }

    fn medians(&mut self) -> [f64; 2] {
        [&mut self.size, &mut self.read].map(|times| Self::median(times))
    }
}

/// The rows, the library's times beside the scanner's, or the scanner's alone.
pub fn table(library: Option<&Entries>) {
    println!("{ABOUT}\n{BOUNDS}\n");
    let mut readers = vec![SCANNER];
    readers.extend(library);
    titles(&readers);
    let mut outputs = [MOST_EVENTS; 3].map(Lent::new);
    let mut over = Vec::new();
    let sole = TIMED.iter();
    let sole = sole.map(|large| Row::of(large.name.to_string(), [&(large.file)()]));
    for row in sole.chain(real_files()) {
        let times = timed(&readers, &row, &mut outputs);
        print_row(&row, &times);
        if !bounds_kept(&row, &times) {
            over.push(row.name);
        }
    }
    match over[..] {
        _ if library.is_none() => {}
        [] => println!("\nAll rows keep the bounds."),
        _ => println!("\nOver the bounds: {}.", over.join("; ")),
    }
}

/// Says so where they are not there.
fn real_files() -> Option<Row> {
    let files = real::files().map_err(|what| println!("{what}")).ok()?;
    let name = format!("{} real files", files.len());
    Some(Row::of(name, files.iter().map(|file| &file.1)))
}

/// The readers by turns; of each the medians of size and read.
fn timed(readers: &[Entries], row: &Row, outputs: &mut Outputs) -> Vec<[f64; 2]> {
    let mut times: Vec<_> = readers.iter().map(|_| Times::default()).collect();
    let begun = Instant::now();
    let mut runs = 0;
    while runs <= LEAST_RUNS || begun.elapsed() < GOING_ON {
        for (reader, times) in readers.iter().zip(&mut times) {
            let size = run(&row.files, |file| reader.size(file));
            let read = run(&row.files, |file| reader.read(file, outputs));
            // The first run warms.
            if runs > 0 {
                times.size.push(size);
                times.read.push(read);
            }
        }
        runs += 1;
    }
    times.iter_mut().map(Times::medians).collect()
}

fn run(files: &[Lent<u8>], mut call: impl FnMut(&Lent<u8>) -> PieceSize) -> f64 {
    let all = || {
        for file in files {
            assert_ne!(std::hint::black_box(call(file)).number, 8);
        }
    };
    clock::timed(all).0
}

fn titles(readers: &[Entries]) {
    print!("{:34}{:>11}{:>7}{:>9}", "file", "bytes", "number", "events");
    for reader in readers {
        print!("{:>14}{:>14}", format!("{} size", reader.name), "read");
    }
    if readers.len() > 1 {
        print!("{:>8}{:>8}{:>8}", "size x", "read x", "both x");
    }
    println!();
}

fn print_row(row: &Row, times: &[[f64; 2]]) {
    let bytes: usize = row.files.iter().map(|file| file.elements().len()).sum();
    let (name, number) = (&row.name, row.number);
    print!("{name:34}{bytes:>11}{number:>7}{:>9}", row.events);
    for [size, read] in times {
        print!("{size:>14.3}{read:>14.3}");
    }
    for ratio in ratios(row, times) {
        print!("{ratio:>8.2}");
    }
    println!();
}

/// Size over size, read over read and, where the file is read, both over the scanner's read.
fn ratios(row: &Row, times: &[[f64; 2]]) -> Vec<f64> {
    let &[[count, write], [size, read]] = times else {
        return Vec::new();
    };
    let mut ratios = vec![size / count, read / write];
    if row.number == 0 {
        ratios.push((size + read) / write);
    }
    ratios
}

/// Of the library's times. A ratio of times below a microsecond says nothing.
fn bounds_kept(row: &Row, times: &[[f64; 2]]) -> bool {
    let &[_, [size, read]] = times else {
        return true;
    };
    let most = match row.events {
        MOST_EVENTS if !row.name.ends_with(BY_CHANCE) => 10.0,
        _ => 500.0,
    };
    let close = ratios(row, times)[..2].iter().all(|&ratio| ratio <= 2.0);
    size.max(read) < most && (close || read < 0.001)
}
