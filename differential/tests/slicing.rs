//! The slicer finds each item of the reference just once, and says so where it does not.

#[path = "../slicing.rs"]
#[allow(dead_code)]
mod slicing;

use slicing::{REFERENCE, SLICES, items, slice};
use std::path::Path;

fn source(file: &str) -> String {
    let package = Path::new(env!("CARGO_MANIFEST_DIR"));
    std::fs::read_to_string(package.join(REFERENCE).join(file)).expect("the reference")
}

#[test]
fn every_item_is_found_and_whole() {
    for (file, _, wanted) in SLICES {
        let source = source(file);
        let text = slice(&source, wanted).expect(file);
        let names: Vec<_> = items(&text).into_iter().map(|item| item.0).collect();
        assert_eq!(names, wanted, "{file}");
        for (_, item) in items(&text) {
            assert!(source.contains(item));
            assert_eq!(item.matches('{').count(), item.matches('}').count());
        }
    }
}

#[test]
fn missing_and_double_items_are_named() {
    let text = "fn a() {}\nstruct B;\nfn a() {}\n";
    assert_eq!(slice(text, &["struct B"]).as_deref(), Ok("struct B;\n\n"));
    assert_eq!(
        slice(text, &["fn a"]),
        Err("`fn a` found 2 times, not once".into())
    );
    assert_eq!(
        slice(text, &["fn c"]),
        Err("`fn c` found 0 times, not once".into())
    );
}

#[test]
fn boundaries() {
    let text = r##"//! Head.
use std::{fmt, io};

/// Doc with a { brace.
#[derive(Debug, Clone)]
pub(super) struct One<'a> { text: &'a str }
pub const TWO: [u8; 2] = { let x = [b'{', b'}']; x };
/* { /* nested } */ */
pub const fn three(c: char) -> bool { c == '\'' || c == '{' || "\"}" == r#""}"# }
impl<'a> One<'a> { fn four(&self) {} } // }
type Five = (u8, [u8; 3]);
"##;
    let found = items(text);
    let names: Vec<_> = found.iter().map(|item| item.0.as_str()).collect();
    assert_eq!(
        names,
        [
            "use std",
            "struct One",
            "const TWO",
            "fn three",
            "impl One",
            "type Five"
        ]
    );
    assert!(found[1].1.starts_with("#[derive"));
    assert!(found[2].1.ends_with("x };"));
    assert!(found[3].1.ends_with("\"# }"));
    assert!(found[4].1.ends_with("{} }"));
}
