//! Takes whole files of the reference, and single items out of a file by their boundaries.

use std::{fs, path::Path};

/// What is taken: the file below the reference, the name of the slice, its items.
pub const SLICES: [(&str, &str, &[&str]); 3] = [
    (
        "crates/io/src/midi/mod.rs",
        "midi.rs",
        &[
            "const MAX_MEASURES",
            "const MAX_PARTS",
            "type MidiMetaChanges",
            "fn parse_midi",
            "fn recognized_auxiliary_channels",
            "fn mirrored_automation",
            "fn loss_diagnostics",
            "fn unmatched_note_diagnostics",
            "struct RawNote",
            "fn collect_raw_notes",
            "fn extract_program",
            "fn collect_pitch_bends",
            "fn collect_control_changes",
            "fn collect_program_changes",
            "fn collect_aftertouch",
            "fn normalize_tick",
            "fn collect_meta_changes",
            "fn collect_key_changes",
            "fn off_measure_meta_change_diagnostics",
            "fn track_name",
            "fn midi_to_pitch",
        ],
    ),
    (
        "crates/io/src/midi/serialize.rs",
        "serialize.rs",
        &["const AUX_PREFIX", "const AUX_MARKER_LEN"],
    ),
    // A second copy of these four, beside the whole file: they are private there.
    (
        "crates/io/src/midi/transcribe.rs",
        "voices.rs",
        &[
            "struct VoiceChord",
            "fn grid_ticks",
            "fn snap",
            "fn assign_voices",
        ],
    ),
];

/// Files of this package that are taken whole.
pub const WHOLE: [&str; 2] = [
    "crates/io/src/midi/transcribe.rs",
    "crates/io/src/report.rs",
];

/// Files that the stand-in of the score model takes whole.
pub const WHOLE_MODEL: [&str; 2] = [
    "crates/core/src/model/duration.rs",
    "crates/core/src/model/pitch.rs",
];

/// The reference, seen from the package's folder.
pub const REFERENCE: &str = "../../shared/docs/src";

/// Reads a file of the reference; the build stops where it cannot.
pub fn read(reference: &Path, file: &str) -> String {
    let path = reference.join(file);
    println!("cargo::rerun-if-changed={}", path.display());
    fs::read_to_string(&path).unwrap_or_else(|error| panic!("{}: {error}", path.display()))
}

/// Copies whole files to `out`, with a `whole.rs` there that declares them as modules. They are
/// compiled from the copy, so that a tool that rewrites sources cannot reach the reference.
pub fn copy(reference: &Path, files: &[&str], out: &Path) {
    let mut modules = String::new();
    for file in files {
        let name = Path::new(file).file_stem().expect("a name");
        let copy = out.join(name).with_extension("rs");
        fs::write(&copy, read(reference, file)).expect("the copy can be written");
        let (copy, name) = (copy.display(), name.display());
        modules += &format!("#[path = \"{copy}\"]\n#[allow(warnings, clippy::all)]\nmod {name};\n");
    }
    fs::write(out.join("whole.rs"), modules).expect("the list can be written");
}

/// The texts of the wanted items, in the order asked for. Each must stand there just once.
pub fn slice(source: &str, wanted: &[&str]) -> Result<String, String> {
    let items = items(source);
    let mut out = String::new();
    for want in wanted {
        let found: Vec<_> = items.iter().filter(|(name, _)| name == want).collect();
        let [(_, text)] = found[..] else {
            return Err(format!("`{want}` found {} times, not once", found.len()));
        };
        out.push_str(text);
        out.push_str("\n\n");
    }
    Ok(out)
}

/// Each item at the top level as (keyword and name, text with its attributes).
pub fn items(source: &str) -> Vec<(String, &str)> {
    let mut items = Vec::new();
    let mut at = 0;
    while at < source.len() {
        if is_blank(source, at) {
            at += token(source, at);
            continue;
        }
        let start = at;
        while source[at..].starts_with("#") {
            at = group_end(source, at);
            while at < source.len() && is_blank(source, at) {
                at += token(source, at);
            }
        }
        let name = name(source, at);
        let end = item_end(source, at, &name);
        items.push((name, &source[start..end]));
        at = end;
    }
    items
}

/// Keyword and name, past visibility: `fn parse_midi`.
fn name(source: &str, mut at: usize) -> String {
    let mut words: Vec<&str> = Vec::new();
    while at < source.len() && words.len() < 2 {
        let length = token(source, at);
        let word = &source[at..at + length];
        at += length;
        if word == "(" {
            at = group_end(source, at - 1);
        } else if word == "fn" {
            words = vec![word];
        } else if word != "pub" && word.starts_with(|c: char| c.is_alphabetic() || c == '_') {
            words.push(word);
        }
    }
    words.join(" ")
}

/// Where the item ends: behind its `;` or, for those that end without one, its last brace.
fn item_end(source: &str, mut at: usize, name: &str) -> usize {
    let keyword = name.split(' ').next().unwrap_or("");
    let ends_in_semicolon = ["const", "static", "type", "use"].contains(&keyword);
    while at < source.len() {
        match &source[at..at + token(source, at)] {
            ";" => return at + 1,
            "{" if !ends_in_semicolon => return group_end(source, at),
            "(" | "[" | "{" => at = group_end(source, at),
            other => at += other.len(),
        }
    }
    panic!("`{name}` does not end");
}

/// Behind the bracket that closes the first one at or after `at`.
fn group_end(source: &str, mut at: usize) -> usize {
    let mut depth = 0;
    while at < source.len() {
        let length = token(source, at);
        match &source[at..at + length] {
            "(" | "[" | "{" => depth += 1,
            ")" | "]" | "}" => depth -= 1,
            _ => {}
        }
        at += length;
        if depth == 0 && source[..at].ends_with([')', ']', '}']) {
            return at;
        }
    }
    panic!("a bracket is not closed");
}

fn is_blank(source: &str, at: usize) -> bool {
    let rest = &source[at..];
    rest.starts_with(char::is_whitespace) || rest.starts_with("//") || rest.starts_with("/*")
}

/// Length of the token at `at`: a comment, a string, a character, a word or a single sign.
fn token(source: &str, at: usize) -> usize {
    let rest = &source[at..];
    let first = rest.chars().next().expect("inside the text");
    if rest.starts_with("//") {
        return rest.find('\n').unwrap_or(rest.len());
    }
    if rest.starts_with("/*") {
        return comment(rest);
    }
    if first == '"' {
        return string(rest);
    }
    if first == '\'' {
        return quote(rest);
    }
    if first.is_alphanumeric() || first == '_' {
        let word = word(rest);
        return match &rest[..word] {
            "b" | "c" if rest[word..].starts_with('"') => word + string(&rest[word..]),
            "b" if rest[word..].starts_with('\'') => word + quote(&rest[word..]),
            "r" | "br" | "cr" => word + raw_string(&rest[word..]),
            _ => word,
        };
    }
    first.len_utf8()
}

fn word(text: &str) -> usize {
    text.find(|c: char| !c.is_alphanumeric() && c != '_')
        .unwrap_or(text.len())
}

/// A comment between `/*` and `*/`, others inside it.
fn comment(text: &str) -> usize {
    let (mut at, mut depth) = (0, 0);
    while at < text.len() {
        let step = match text.as_bytes()[at..] {
            [b'/', b'*', ..] => {
                depth += 1;
                2
            }
            [b'*', b'/', ..] => {
                depth -= 1;
                2
            }
            _ => 1,
        };
        at += step;
        if depth == 0 {
            return at;
        }
    }
    panic!("a comment is not closed");
}

fn string(text: &str) -> usize {
    let mut escaped = false;
    for (at, sign) in text.char_indices().skip(1) {
        match sign {
            '"' if !escaped => return at + 1,
            '\\' => escaped = !escaped,
            _ => escaped = false,
        }
    }
    panic!("a string is not closed");
}

/// What follows the `r` of a raw string; 0 for other words (`r#name`).
fn raw_string(text: &str) -> usize {
    let hashes = text.len() - text.trim_start_matches('#').len();
    if !text[hashes..].starts_with('"') {
        return 0;
    }
    let close = format!("\"{}", "#".repeat(hashes));
    let inside = &text[hashes + 1..];
    let length = inside.find(&close).expect("a raw string is closed");
    hashes + 1 + length + close.len()
}

/// A character, or the tick of a lifetime with its name.
fn quote(text: &str) -> usize {
    let mut signs = text.char_indices().skip(1);
    let (_, first) = signs.next().expect("something follows a quote");
    if first == '\\' {
        let escaped = text[3..].find('\'').expect("a character is closed");
        return 3 + escaped + 1;
    }
    match signs.next() {
        Some((at, '\'')) => at + 1,
        _ => 1 + word(&text[1..]),
    }
}
