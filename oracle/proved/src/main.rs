//! Compares the proved library with the original Rust and the plain reading:
//! `proved [--calls N] [--seed S]`.

use std::env;
use std::process::ExitCode;
use std::time::Instant;

use proved::{Library, Run};

/// From here on a run should reach every pair of step and answer.
const LONG: u64 = 300_000;

fn main() -> ExitCode {
    let args: Vec<String> = env::args().skip(1).collect();
    let (mut calls, mut seed) = (LONG, 3);
    for pair in args.chunks(2) {
        match pair {
            [flag, number] if flag == "--calls" => calls = value(number),
            [flag, number] if flag == "--seed" => seed = value(number),
            _ => {
                eprintln!("usage: proved [--calls N] [--seed S]");
                return ExitCode::from(2);
            }
        }
    }
    println!("seed {seed}");
    let start = Instant::now();
    let mut run = Run::new(Library);
    run.take(calls, seed);
    print!("{run}");
    let faults = if calls < LONG {
        Vec::new()
    } else {
        run.faults()
    };
    faults.iter().for_each(|fault| println!("{fault}"));
    let failed = run.differences + faults.len() as u64;
    println!("{} seconds", start.elapsed().as_secs());
    println!("{} passed, {failed} failed", run.same());
    ExitCode::from(u8::from(failed != 0))
}

fn value(number: &str) -> u64 {
    number.parse().expect("a number")
}
