//! What a run of calls reached.

use std::fmt::{self, Display, Formatter};

use board::read;
use plain::{Outcome, Step};

use crate::{Reached, Table};

#[derive(Default)]
pub struct Tally {
    table: Table,
    reached: Reached,
    /// Batches that handled two shards or more, and ones refused after one.
    many: u64,
    partly: u64,
}

impl Tally {
    /// A call, by the snapshot before it and its outcome.
    pub fn count(&mut self, before: &[u64], step: Step, outcome: Outcome) {
        self.table.count(step, outcome);
        read(before)
            .iter()
            .for_each(|board| self.reached.count(board));
        let Outcome {
            answer, handled, ..
        } = outcome;
        if (Step::ScheduleSplits..=Step::CutMerges).contains(&step) {
            self.many += u64::from(handled > 1);
            self.partly += u64::from(answer != 0 && handled > 0);
        }
    }

    #[must_use]
    pub fn total(&self) -> u64 {
        self.table.total()
    }

    /// What a long run should have reached and has not.
    #[must_use]
    pub fn faults(&self) -> Vec<String> {
        let mut faults = self.table.faults();
        if !self.reached.all() {
            faults.push("a limit was never reached".to_owned());
        }
        if self.many == 0 || self.partly == 0 {
            faults.push("no batch of two shards, or none refused after one".to_owned());
        }
        faults
    }
}

impl Display for Tally {
    fn fmt(&self, f: &mut Formatter<'_>) -> fmt::Result {
        write!(f, "{}", self.table)?;
        writeln!(f, "{}", self.reached)?;
        writeln!(
            f,
            "batches: {} handled two shards or more, {} were refused after one",
            self.many, self.partly
        )
    }
}
