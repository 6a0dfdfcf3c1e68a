//! Compares the original Rust with the plain reading, over calls from a seed
//! or over the recorded ones, and prints the table of what was reached.

use std::collections::BTreeMap;
use std::env;
use std::fs;
use std::process::ExitCode;

use calls::recorded::decode;
use calls::{Made, Rng, Series, Tally, any_series};
use compare::{Witness, against_rust};

fn main() -> ExitCode {
    let args: Vec<String> = env::args().skip(1).collect();
    let mut run = Run::default();
    match args.iter().map(String::as_str).collect::<Vec<_>>()[..] {
        ["recorded", path] => run.take_file(path),
        ["live", calls, seed] => run.take_live(number(calls), number(seed)),
        _ => {
            eprintln!("usage: compare live CALLS SEED, or compare recorded FILE");
            return ExitCode::from(2);
        }
    }
    run.report()
}

fn number(arg: &str) -> u64 {
    arg.parse().expect("a number")
}

#[derive(Default)]
struct Run {
    tally: Tally,
    witnesses: BTreeMap<Witness, u64>,
    differences: u64,
}

impl Run {
    fn take_live(&mut self, calls: u64, seed: u64) {
        let mut rng = Rng::new(seed);
        while self.tally.total() < calls {
            self.take(&any_series(&mut rng));
        }
    }

    fn take_file(&mut self, path: &str) {
        let bytes = fs::read(path).expect("the recorded calls can be read");
        for recorded in decode(&bytes).expect("the recorded calls have their form") {
            match recorded.replay() {
                Ok(series) => self.take(&series),
                Err(why) => {
                    self.differences += 1;
                    println!("DIFFERENT: {why}");
                }
            }
        }
    }

    fn take(&mut self, series: &Series) {
        let mut before = &series.start;
        for made in &series.made {
            self.tally.count(before, made.call.step, made.outcome);
            match against_rust(before, made) {
                Ok(witness) => *self.witnesses.entry(witness).or_default() += 1,
                Err(why) => self.differ(&why, before, made),
            }
            before = &made.after;
        }
    }

    fn differ(&mut self, why: &str, before: &[u64], made: &Made) {
        self.differences += 1;
        if self.differences <= 5 {
            println!("DIFFERENT: {why}\n  before {before:?}\n  {made:?}");
        }
    }

    fn report(&self) -> ExitCode {
        print!("{}", self.tally);
        for (witness, count) in &self.witnesses {
            println!("{count:>8} {witness}");
        }
        let calls = self.tally.total();
        println!("{calls} calls, {} differences", self.differences);
        let faults = self.tally.faults();
        faults.iter().for_each(|fault| println!("{fault}"));
        let good = self.differences == 0 && faults.is_empty();
        ExitCode::from(u8::from(!good))
    }
}
