//! Calls from a seed, each compared, and what they reached.

use std::collections::BTreeMap;
use std::fmt::{self, Display, Formatter};

use calls::{Rng, Series, Tally, any_series};
use compare::Witness;
use plain::Step;

use crate::case::{Case, damaged, misnumbered};
use crate::shrink::{reproduction, smallest};
use crate::{Checker, Subject};

/// How many differences are brought down and printed.
const SHOWN: u64 = 3;

pub struct Run<S> {
    checker: Checker<S>,
    tally: Tally,
    witnesses: BTreeMap<Witness, u64>,
    /// Boards damaged in place, of which some stay boards; wrong lengths.
    damaged: u64,
    still_boards: u64,
    misnumbered: u64,
    /// Boards after a call that pass the seat check, and that don't.
    seated: u64,
    unseated: u64,
    pub differences: u64,
    pub reports: Vec<String>,
}

impl<S: Subject> Run<S> {
    pub fn new(subject: S) -> Self {
        Self {
            checker: Checker::new(subject),
            tally: Tally::default(),
            witnesses: BTreeMap::new(),
            damaged: 0,
            still_boards: 0,
            misnumbered: 0,
            seated: 0,
            unseated: 0,
            differences: 0,
            reports: Vec::new(),
        }
    }

    /// How many calls were compared, and nothing differed.
    pub fn same(&self) -> u64 {
        self.tally.total() + self.misnumbered
    }

    /// What a long run should have reached and has not.
    pub fn faults(&self) -> Vec<String> {
        self.tally.faults()
    }

    /// Series after series, until so many calls are compared.
    pub fn take(&mut self, calls: u64, seed: u64) {
        let mut rng = Rng::new(seed);
        while self.same() + self.differences < calls {
            let series = any_series(&mut rng);
            self.take_series(&mut rng, &series);
        }
    }

    /// Each call of a series; to some, the same on words that are damaged in
    /// place or of a wrong number.
    fn take_series(&mut self, rng: &mut Rng, series: &Series) {
        let mut before = &series.start;
        let mut bytes = series.bytes;
        for made in &series.made {
            let case = Case {
                bytes,
                ..Case::new(before, &made.call)
            };
            self.tallied(&case);
            if rng.chance(20) && case.call.step != Step::Read {
                let held = self.tallied(&damaged(rng, &case));
                self.damaged += 1;
                self.still_boards += u64::from(held);
            }
            if rng.chance(5) {
                let same = self.compare(&misnumbered(rng, &case));
                self.misnumbered += u64::from(same.is_some());
            }
            before = &made.after;
            bytes = before.len() as u64 * 8;
        }
    }

    /// A call on as many words as a board is; whether one stood there.
    fn tallied(&mut self, case: &Case) -> bool {
        let Some(expected) = self.compare(case) else {
            return false;
        };
        self.tally
            .count(&case.before, case.call.step, expected.outcome);
        *self.witnesses.entry(expected.witness).or_default() += 1;
        let held = expected.snapshot.is_some();
        self.seated += u64::from(expected.seated);
        self.unseated += u64::from(held && !expected.seated);
        held
    }

    fn compare(&mut self, case: &Case) -> Option<crate::Expected> {
        let same = self.checker.check(case);
        if same.is_err() {
            self.differences += 1;
            if self.differences <= SHOWN {
                let (case, why) = smallest(&mut self.checker, case);
                self.reports.push(reproduction(&case, &why));
            }
        }
        same.ok()
    }
}

impl<S> Display for Run<S> {
    fn fmt(&self, f: &mut Formatter<'_>) -> fmt::Result {
        write!(f, "{}", self.tally)?;
        for (witness, count) in &self.witnesses {
            writeln!(f, "{count:>8} {witness}")?;
        }
        writeln!(
            f,
            "{:>8} of these on words damaged in place, {} of which still held a board",
            self.damaged, self.still_boards
        )?;
        writeln!(f, "{:>8} more on a wrong number of words", self.misnumbered)?;
        writeln!(
            f,
            "the seat check passes {} of the boards after, and {} not",
            self.seated, self.unseated
        )?;
        for report in &self.reports {
            writeln!(f, "DIFFERENT: {report}")?;
        }
        Ok(())
    }
}
