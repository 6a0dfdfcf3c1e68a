//! Runs recorded calls against the plain reading: `replay FILE`.

use std::env;
use std::fs;
use std::process::ExitCode;

use calls::recorded::decode;

fn main() -> ExitCode {
    let path = env::args().nth(1).unwrap_or_default();
    let Some(all) = fs::read(&path).ok().and_then(|bytes| decode(&bytes)) else {
        eprintln!("{path}: not a file of recorded calls");
        return ExitCode::from(2);
    };
    let calls: usize = all.iter().map(|recorded| recorded.lines.len()).sum();
    let wrong: Vec<String> = all.iter().filter_map(|one| one.replay().err()).collect();
    wrong.iter().take(5).for_each(|why| println!("{why}"));
    let series = all.len();
    println!(
        "{calls} recorded calls in {series} series run, {} series differ",
        wrong.len()
    );
    ExitCode::from(u8::from(!wrong.is_empty()))
}
