//! Makes the recorded calls anew, from their seed: `record FILE`.

use std::env;
use std::fs;
use std::process::ExitCode;

use calls::recorded::{count, encode, recorded_series};

const SEED: u64 = 2;

fn main() -> ExitCode {
    let Some(path) = env::args().nth(1) else {
        eprintln!("usage: record FILE");
        return ExitCode::from(2);
    };
    let all = recorded_series(SEED);
    let table = count(&all);
    let bytes = encode(&all);
    print!("{table}");
    println!(
        "{} calls in {} series, {} bytes",
        table.total(),
        all.len(),
        bytes.len()
    );
    let faults = table.faults();
    faults.iter().for_each(|fault| println!("{fault}"));
    if let Err(error) = fs::write(&path, bytes) {
        eprintln!("{path}: {error}");
        return ExitCode::FAILURE;
    }
    ExitCode::from(u8::from(!faults.is_empty()))
}
