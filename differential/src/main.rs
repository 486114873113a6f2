//! The commands; see README.md.

#[cfg(feature = "library")]
use differential::answers::Answers;
use differential::checked::named;
#[cfg(feature = "library")]
use differential::compare::Rooms;
use differential::coverage::Report;
use differential::examples::EXAMPLES;
use differential::files::{self, Entries};
#[cfg(feature = "library")]
use differential::leftovers::Tally;
use differential::piece::Piece;
#[cfg(feature = "library")]
use differential::proofread::{self, Library};
#[cfg(feature = "library")]
use differential::{arbitrary, bench, compare, shrink};
use differential::{generate, list, pages, reference, staffs, text};
use std::io::Read;
use std::process::ExitCode;

const USAGE: &str = "usage: differential COMMAND
  show [FILE]          the reference's answers to a piece, one fact a line
  print [FILE]         what the printing program prints for a piece
  examples             document 01's examples against the reference and, with the feature, the library
  generate SEED COUNT  the reference over generated pieces
  piece SEED INDEX     one generated piece
  short SEED INDEX     one of the short pieces of `sweep`
  halved SEED INDEX    one of the pieces of `leftovers`
  staffs SEED INDEX CHANGES  a generated piece's staffs, engraved and changed, with the plain proof-reader's answers
  list SEED COUNT      a list of the reference's answers, and a second reader's on files, for the program `replay`;
                       coverage on the standard error
  pages                the printing programs' pages of the real pieces against the reference's text
  pages SEED COUNT     the same of generated pieces
  compare SEED COUNT [SECONDS]    the proved library against the reference (feature `library`)
  sweep SEED COUNT [SECONDS]      short pieces in less time: most with exactly enough room alone (feature `library`)
  leftovers SEED COUNT [SECONDS]  the same on short pieces with notes, half of them of ticks per quarter that are no multiple
                                  of 16, with counts of leftovers (feature `library`)
  large                           the same on the benchmark's pieces (feature `library`)
  arbitrary SEED COUNT [SECONDS]  the library's entries on arbitrary arrays (feature `library`)
  proofread SEED COUNT [SECONDS]  the library's proof-reader against the plain one (feature `library`)
  bench [TABLE ..]                times of both (feature `library`)
  files SEED COUNT [SECONDS]      the library's reader of files against a second reader
  files-all                       the same on changes of the worked files, all short tracks and large files
  files-real                      the real files give their pieces
  bench-files                     times of the library's reader of files beside a plain scanner's in C
Behind the name of these four, `--scanner` asks the plain scanner; else they take the feature `library`.
A piece is three lines of decimals: sizes, deltas, words.";

fn main() -> ExitCode {
    let arguments: Vec<String> = std::env::args().skip(1).collect();
    let words: Vec<&str> = arguments.iter().map(String::as_str).collect();
    let result = match words[..] {
        ["show", ref file @ ..] if file.len() < 2 => show(file.first()),
        ["print", ref file @ ..] if file.len() < 2 => print(file.first()),
        ["examples"] => examples(),
        ["generate", seed, count] => number(seed).and_then(|seed| run(seed, number(count)?)),
        ["piece", seed, index] => number(seed).and_then(|seed| {
            print!("{}", generate::numbered(seed, number(index)?).print());
            Ok(())
        }),
        ["short", seed, index] => number(seed).and_then(|seed| {
            print!("{}", generate::short(seed, number(index)?).print());
            Ok(())
        }),
        ["halved", seed, index] => number(seed).and_then(|seed| {
            print!("{}", generate::halved(seed, number(index)?).print());
            Ok(())
        }),
        ["staffs", seed, index, changes] => number(seed).and_then(|seed| {
            print!("{}", staffs::text(seed, number(index)?, number(changes)?));
            Ok(())
        }),
        ["list", seed, count] => number(seed).and_then(|seed| {
            let (list, report) = list::of_seed(seed, number(count)?);
            print!("{list}");
            eprint!("{report}");
            Ok(())
        }),
        ["pages"] => pages::real(),
        ["pages", seed, count] => {
            number(seed).and_then(|seed| pages::generated(seed, number(count)?))
        }
        #[cfg(feature = "library")]
        ["bench", ref tables @ ..] => {
            bench::tables(tables);
            Ok(())
        }
        #[cfg(feature = "library")]
        ["large"] => bench::compared(),
        #[cfg(feature = "library")]
        ["compare", ref numbers @ ..] => limited(compare, numbers),
        #[cfg(feature = "library")]
        ["sweep", ref numbers @ ..] => limited(sweep, numbers),
        #[cfg(feature = "library")]
        ["leftovers", ref numbers @ ..] => limited(leftovers, numbers),
        #[cfg(feature = "library")]
        ["arbitrary", ref numbers @ ..] => limited(arbitrary::run, numbers),
        #[cfg(feature = "library")]
        ["proofread", ref numbers @ ..] => limited(proofread::run::<Library>, numbers),
        ["files", ref words @ ..] => asked(words).and_then(|(asked, numbers)| {
            let run = |seed, count, seconds| files::run(&asked, [seed, count, seconds]);
            limited(run, numbers)
        }),
        ["files-all", ref words @ ..] => alone(files::all::run, words),
        ["files-real", ref words @ ..] => alone(files::real::run, words),
        ["bench-files", "--scanner"] => {
            files::bench::table(None);
            Ok(())
        }
        ["bench-files"] => asked(&[]).map(|(asked, _)| files::bench::table(Some(&asked))),
        _ => Err(USAGE.to_string()),
    };
    match result {
        Ok(()) => ExitCode::SUCCESS,
        Err(message) => {
            eprintln!("{message}");
            ExitCode::FAILURE
        }
    }
}

fn number(word: &str) -> Result<u64, String> {
    word.parse().map_err(|_| USAGE.to_string())
}

/// Who reads files, the plain scanner if the first word says so, and the other words.
fn asked<'a, 'b>(words: &'a [&'b str]) -> Result<(Entries, &'a [&'b str]), String> {
    match words {
        ["--scanner", rest @ ..] => Ok((files::SCANNER, rest)),
        #[cfg(feature = "library")]
        _ => Ok((files::LIBRARY, words)),
        #[cfg(not(feature = "library"))]
        _ => Err(USAGE.to_string()),
    }
}

/// A run that takes no other words.
fn alone(run: fn(&Entries) -> Result<(), String>, words: &[&str]) -> Result<(), String> {
    match asked(words)? {
        (asked, []) => run(&asked),
        _ => Err(USAGE.to_string()),
    }
}

/// A run of a seed, a count and perhaps a limit in seconds.
fn limited(
    run: impl Fn(u64, u64, u64) -> Result<(), String>,
    numbers: &[&str],
) -> Result<(), String> {
    match *numbers {
        [seed, count] => run(number(seed)?, number(count)?, u64::MAX),
        [seed, count, seconds] => run(number(seed)?, number(count)?, number(seconds)?),
        _ => Err(USAGE.to_string()),
    }
}

/// The piece of a file or of the standard input; `None` if the text is no piece.
fn read(file: Option<&&str>) -> Result<Option<Piece>, String> {
    let mut bytes = Vec::new();
    match file {
        Some(name) => bytes = std::fs::read(name).map_err(|error| format!("{name}: {error}"))?,
        None => drop(
            std::io::stdin()
                .read_to_end(&mut bytes)
                .map_err(|error| error.to_string())?,
        ),
    }
    let text = String::from_utf8(bytes).ok();
    Ok(text.and_then(|text| Piece::parse(&text)))
}

fn show(file: Option<&&str>) -> Result<(), String> {
    match read(file)? {
        Some(piece) => print!("{}", text::answers(&reference::answers(&piece))),
        None => println!("refused 1"),
    }
    Ok(())
}

fn print(file: Option<&&str>) -> Result<(), String> {
    let import = read(file)?.map_or(Err(1), |piece| reference::import(&piece));
    print!("{}", text::print(&import));
    Ok(())
}

fn examples() -> Result<(), String> {
    let mut differing = 0;
    for example in EXAMPLES {
        let name = example.name;
        match example.run() {
            Ok(()) => println!("ok {name}"),
            Err(what) => {
                println!("differs {name}: {what}");
                differing += 1;
            }
        }
    }
    #[cfg(feature = "library")]
    {
        compare::values::all()?;
        println!("ok beats of every value and spelling of every key");
    }
    match differing {
        0 => Ok(()),
        _ => Err(format!("{differing} examples differ")),
    }
}

/// The pieces one by one, so that a failing one is named.
fn run(seed: u64, count: u64) -> Result<(), String> {
    let mut report = Report::default();
    for index in 0..count {
        let piece = generate::numbered(seed, index);
        named(seed, index, || {
            report.add(&piece, &reference::answers(&piece))
        })?;
    }
    print!("{report}");
    Ok(())
}

/// The library against the reference, with what the pieces reached.
#[cfg(feature = "library")]
fn compare(seed: u64, count: u64, seconds: u64) -> Result<(), String> {
    let mut report = Report::default();
    let done = each(
        generate::numbered,
        [seed, count, seconds],
        |_, piece, answers| {
            report.add(piece, answers);
            Rooms::All
        },
    )?;
    print!("{report}");
    println!("{done}");
    Ok(())
}

/// Short pieces in less time: fifteen of sixteen are asked with exactly enough room alone, and nothing is counted.
#[cfg(feature = "library")]
fn sweep(seed: u64, count: u64, seconds: u64) -> Result<(), String> {
    let done = each(
        generate::short,
        [seed, count, seconds],
        |index, _, _| match index % 16 {
            0 => Rooms::All,
            _ => Rooms::Exact,
        },
    )?;
    println!("{done}");
    Ok(())
}

/// Short pieces with notes, of which every second has ticks per quarter that are no multiple of 16, and what their leftovers
/// are. Two of 32 are asked with every room.
#[cfg(feature = "library")]
fn leftovers(seed: u64, count: u64, seconds: u64) -> Result<(), String> {
    let mut tally = Tally::default();
    let done = each(
        generate::halved,
        [seed, count, seconds],
        |index, piece, answers| {
            let import = answers.import.as_ref().expect("a piece with notes");
            tally.add(piece, import);
            match index % 32 {
                0 | 1 => Rooms::All,
                _ => Rooms::Exact,
            }
        },
    )?;
    print!("{tally}");
    println!("{done}");
    Ok(())
}

/// Compares piece by piece until one differs or the time is over.
#[cfg(feature = "library")]
fn each(
    numbered: impl Fn(u64, u64) -> Piece,
    [seed, count, seconds]: [u64; 3],
    mut rooms: impl FnMut(u64, &Piece, &Answers) -> Rooms,
) -> Result<String, String> {
    let begun = std::time::Instant::now();
    let mut compared = 0;
    while compared < count && begun.elapsed().as_secs() < seconds {
        let piece = numbered(seed, compared);
        let checked = named(seed, compared, || {
            let answers = reference::answers(&piece);
            let rooms = rooms(compared, &piece, &answers);
            compare::answers(&piece, &answers, rooms)
        })?;
        checked.map_err(|what| differing(&piece, format!("piece {seed} {compared}: {what}")))?;
        compared += 1;
        if compared % 20_000 == 0 {
            println!("{compared} pieces, {} s", begun.elapsed().as_secs());
        }
    }
    let seconds = begun.elapsed().as_secs();
    Ok(format!(
        "{compared} of {count} pieces of seed {seed} compared, all agree, {seconds} s"
    ))
}

/// What is said of a piece on which the two differ: the smallest that was found, and why.
#[cfg(feature = "library")]
fn differing(piece: &Piece, what: String) -> String {
    let small = shrink::smallest(piece, |smaller| compare::piece(smaller).is_err());
    let why = compare::piece(&small).err().unwrap_or_default();
    format!("{what}\nsmallest:\n{}{why}", small.print())
}
