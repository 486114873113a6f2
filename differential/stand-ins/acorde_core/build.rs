//! Takes the reference's `Duration` and `Pitch` at build time.

#[path = "../../slicing.rs"]
#[allow(dead_code)]
mod slicing;

use std::{env, path::Path};

fn main() {
    println!("cargo::rerun-if-changed=build.rs");
    println!("cargo::rerun-if-changed=../../slicing.rs");
    let out = env::var("OUT_DIR").expect("cargo sets OUT_DIR");
    // Two folders below the package itself.
    let reference = Path::new("../..").join(slicing::REFERENCE);
    slicing::copy(&reference, &slicing::WHOLE_MODEL, Path::new(&out));
}
