//! Takes the reference at build time; no text of it stands in this package. Compiles the plain scanner.

#[allow(dead_code)]
mod slicing;

use std::{env, fs, path::Path, process::Command};

fn main() {
    println!("cargo::rerun-if-changed=build.rs");
    println!("cargo::rerun-if-changed=slicing.rs");
    if env::var_os("CARGO_FEATURE_LIBRARY").is_some() {
        link_library();
    }
    let out = env::var("OUT_DIR").expect("cargo sets OUT_DIR");
    let (out, reference) = (Path::new(&out), Path::new(slicing::REFERENCE));
    link_scanner(out);
    slicing::copy(reference, &slicing::WHOLE, out);
    for (file, name, wanted) in slicing::SLICES {
        let text = slicing::slice(&slicing::read(reference, file), wanted)
            .unwrap_or_else(|error| panic!("{file}: {error}"));
        fs::write(out.join(name), text).expect("the slice can be written");
    }
}

/// The plain scanner in C.
fn link_scanner(out: &Path) {
    println!("cargo::rerun-if-changed=scanner/scan.c");
    let (object, archive) = (out.join("scan.o"), out.join("libscan.a"));
    let flags = ["-std=c11", "-O3", "-Wall", "-Wextra", "-Werror", "-fPIC"];
    let compile = ["-c", "scanner/scan.c", "-o"];
    run(Command::new("gcc").args(flags).args(compile).arg(&object));
    run(Command::new("ar").arg("rcs").arg(archive).arg(object));
    println!("cargo::rustc-link-search={}", out.display());
    println!("cargo::rustc-link-lib=static=scan");
}

fn run(command: &mut Command) {
    let status = command.status().expect("the command can be run");
    assert!(status.success(), "{command:?}");
}

/// libacorde.a of the folder that ACORDE_LIBRARY names, else of the one that `rt lib` in crates/acorde fills.
fn link_library() {
    let package = env::var("CARGO_MANIFEST_DIR").expect("cargo sets CARGO_MANIFEST_DIR");
    let named = env::var("ACORDE_LIBRARY").unwrap_or("../crates/acorde/out".into());
    let folder = Path::new(&package).join(named);
    let library = folder.join("libacorde.a");
    println!("cargo::rerun-if-env-changed=ACORDE_LIBRARY");
    println!("cargo::rerun-if-changed={}", library.display());
    println!("cargo::rustc-link-search={}", folder.display());
    println!("cargo::rustc-link-lib=static=acorde");
}
