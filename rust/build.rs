//! Finds the proved archive: the one that `ROSTER_ARCHIVE` names, else one made by `tools/native-lib`.

use std::env;
use std::ffi::OsString;
use std::fs;
use std::path::{Path, PathBuf};
use std::process::Command;

fn main() {
    println!("cargo:rerun-if-env-changed=ROSTER_ARCHIVE");
    let folder = PathBuf::from(given("OUT_DIR"));
    let archive = folder.join("libroster.a");
    match env::var_os("ROSTER_ARCHIVE") {
        Some(path) => take(Path::new(&path), &archive),
        None => make(&archive),
    }
    println!("cargo:rustc-link-search=native={}", folder.display());
    println!("cargo:rustc-link-lib=static=roster");
}

fn given(name: &str) -> OsString {
    env::var_os(name).expect("cargo sets it")
}

fn take(from: &Path, archive: &Path) {
    println!("cargo:rerun-if-changed={}", from.display());
    if let Err(error) = fs::copy(from, archive) {
        panic!("ROSTER_ARCHIVE, {}: {error}", from.display());
    }
}

/// Proves the Rattle beside this crate wherever it has changed, and compiles it.
fn make(archive: &Path) {
    let repository = PathBuf::from(given("CARGO_MANIFEST_DIR")).join("..");
    for part in ["crates.txt", "tools/native-lib"] {
        println!("cargo:rerun-if-changed={}", repository.join(part).display());
    }
    // a crate's sources alone: beside them stands what is made of them
    for folder in fs::read_dir(repository.join("crates"))
        .expect("the repository has crates")
        .flatten()
    {
        for part in ["src", "specs", "proofs"] {
            let sources = folder.path().join(part);
            if sources.is_dir() {
                println!("cargo:rerun-if-changed={}", sources.display());
            }
        }
    }
    let made = Command::new(repository.join("tools/native-lib"))
        .arg(archive)
        .status();
    match made {
        Ok(status) if status.success() => {}
        ended => panic!("tools/native-lib: {ended:?}; or let ROSTER_ARCHIVE name a libroster.a"),
    }
}
