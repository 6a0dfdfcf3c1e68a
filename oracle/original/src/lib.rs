//! The original Rust: its six files, compiled unchanged from where they stand
//! (see `build.rs`), and a door to the functions that are ported.

#![feature(result_option_map_or_default)]
// Much of the six files is left out of the port, so nothing calls it.
#![allow(dead_code)]

include!(concat!(env!("OUT_DIR"), "/root.rs"));
