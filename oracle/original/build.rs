//! Writes a module root that names the six files where they stand, so that
//! they are compiled unchanged and nothing of them is copied.

use std::env;
use std::fs;
use std::path::{Path, PathBuf};

const STATE: [&str; 5] = ["committee", "lifecycle", "pool", "reshape", "withdrawals"];

fn main() {
    println!("cargo:rerun-if-env-changed=ROSTER_RUST_SRC");
    let here = PathBuf::from(env::var("CARGO_MANIFEST_DIR").expect("cargo sets it"));
    let source = source_root(&here).join("crates/beacon/src");
    let mut root = module(&source.join("sampling.rs"), "sampling");
    root.push_str("pub mod state {\n");
    for name in STATE {
        root.push_str(&module(
            &source.join("state").join(format!("{name}.rs")),
            name,
        ));
    }
    root.push_str(&module(&here.join("src/door.rs"), "door"));
    root.push_str("pub use door::*;\n}\n");
    let out = PathBuf::from(env::var("OUT_DIR").expect("cargo sets it"));
    fs::write(out.join("root.rs"), root).expect("the output directory can be written");
}

fn source_root(here: &Path) -> PathBuf {
    let given = env::var_os("ROSTER_RUST_SRC").map(PathBuf::from);
    given.unwrap_or_else(|| here.join("../../../shared/docs/src"))
}

fn module(path: &Path, name: &str) -> String {
    let Ok(path) = path.canonicalize() else {
        panic!(
            "{} is missing: let ROSTER_RUST_SRC name the directory that holds crates/beacon/src",
            path.display()
        );
    };
    println!("cargo:rerun-if-changed={}", path.display());
    format!("#[path = {path:?}]\nmod {name};\n")
}
