//! docs/DIFFERENCES.md lists every place where a ported function can stop.

use std::env;
use std::fs;
use std::path::{Path, PathBuf};

const HERE: &str = env!("CARGO_MANIFEST_DIR");

/// The ported functions by file.
const PORTED: [(&str, &[&str]); 6] = [
    ("sampling.rs", &["prng_from", "draw_from_pool"]),
    ("state/pool.rs", &["pool_draw", "exit_placement"]),
    (
        "state/withdrawals.rs",
        &["deactivate_to_insufficient_stake"],
    ),
    ("state/lifecycle.rs", &["auto_ready_timeout"]),
    (
        "state/committee.rs",
        &[
            "resolve_pending_rotations",
            "abort_rotations",
            "run_shuffle_step",
        ],
    ),
    (
        "state/reshape.rs",
        &[
            "draw_split_cohort",
            "draw_merge_keepers",
            "release_cohort",
            "lapse_split",
            "schedule_ready_splits",
            "apply_scheduled_splits",
            "pending_placeholder_boundary",
            "try_schedule_split",
            "drained",
            "apply_scheduled_split",
            "schedule_ready_merges",
            "apply_scheduled_merges",
            "try_schedule_merge",
            "apply_scheduled_merge",
            "reshape_prng",
            "cohort_prng",
            "shuffle",
        ],
    ),
];

/// What can stop a function: panics, assertions, indexing and exchanges.
const STOPS: [&str; 11] = [
    ".expect(",
    ".unwrap()",
    "panic!(",
    "unreachable!(",
    "assert!(",
    "assert_eq!(",
    "[&",
    "[idx]",
    "[..]",
    ".split_at(",
    ".swap(",
];

fn source(file: &str) -> String {
    let root = env::var_os("ROSTER_RUST_SRC").map(PathBuf::from);
    let root = root.unwrap_or_else(|| Path::new(HERE).join("../../../shared/docs/src"));
    let path = root.join("crates/beacon/src").join(file);
    fs::read_to_string(path).expect("the six files are at hand")
}

/// A function's lines with their numbers, from its head to its closing brace.
fn body<'a>(text: &'a str, function: &str) -> Vec<(usize, &'a str)> {
    let head = format!("fn {function}(");
    let mut lines = Vec::new();
    for (i, line) in text.lines().enumerate() {
        if !lines.is_empty() || line.contains(&head) {
            lines.push((i + 1, line));
            if line == "}" {
                break;
            }
        }
    }
    assert!(!lines.is_empty(), "{function} is not there");
    lines
}

#[test]
fn every_stop_is_listed() {
    let page = Path::new(HERE).join("../../docs/DIFFERENCES.md");
    let page = fs::read_to_string(page).expect("docs/DIFFERENCES.md is in the repository");
    let mut found = Vec::new();
    for (file, functions) in PORTED {
        let text = source(file);
        let name = file.rsplit('/').next().unwrap_or(file);
        for function in functions {
            for (number, line) in body(&text, function) {
                let code = !line.trim_start().starts_with("//");
                if code && STOPS.iter().any(|stop| line.contains(stop)) {
                    found.push(format!("| {name}:{number} `{function}` |"));
                }
            }
        }
    }
    for place in &found {
        assert!(page.contains(place.as_str()), "{place} is not listed");
    }
    let rows = page
        .lines()
        .filter(|line| line.contains(".rs:") && line.starts_with("| "));
    assert_eq!(rows.count(), found.len());
}
