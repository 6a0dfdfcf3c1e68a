//! Which pairs of step and answer can occur, and how often they did.

use std::collections::BTreeMap;
use std::fmt::{self, Display, Formatter};

use plain::{Outcome, Step};

/// The answers a step can give, by document 01.
#[must_use]
pub fn can_occur(step: Step) -> &'static [u64] {
    match step {
        Step::Tick => &[0, 1, 2],
        Step::AdmitSplit => &[0, 1, 3, 5, 7, 11],
        Step::AdmitMerge => &[0, 1, 3, 5, 7, 9, 10, 11],
        Step::MarkReady | Step::MarkQuiet | Step::Lapse => &[0, 1, 3, 6],
        Step::DrawCohort => &[0, 1, 3, 6, 9, 10, 11, 12],
        Step::ScheduleSplits => &[0, 1, 5, 9, 10],
        Step::ScheduleMerges => &[0, 1, 5],
        Step::CutSplits | Step::CutMerges => &[0, 1, 4, 5, 11],
        Step::Leave => &[0, 1, 4, 9, 10, 11],
        Step::Rotate => &[0, 1, 3, 8, 9, 10, 11],
        Step::Resolve | Step::TimeOut => &[0, 1],
        Step::Read => &[0, 13],
    }
}

#[must_use]
pub fn step_name(step: Step) -> &'static str {
    match step {
        Step::Tick => "tick",
        Step::AdmitSplit => "admit split",
        Step::AdmitMerge => "admit merge",
        Step::MarkReady => "mark seat ready",
        Step::MarkQuiet => "mark quiet",
        Step::DrawCohort => "draw cohort",
        Step::Lapse => "lapse",
        Step::ScheduleSplits => "schedule splits",
        Step::ScheduleMerges => "schedule merges",
        Step::CutSplits => "cut splits",
        Step::CutMerges => "cut merges",
        Step::Leave => "leave",
        Step::Rotate => "rotate",
        Step::Resolve => "resolve",
        Step::TimeOut => "time out",
        Step::Read => "read",
    }
}

#[derive(Default)]
pub struct Table {
    counts: BTreeMap<(Step, u64), u64>,
    handled: BTreeMap<Step, u64>,
}

impl Table {
    pub fn count(&mut self, step: Step, outcome: Outcome) {
        *self.counts.entry((step, outcome.answer)).or_default() += 1;
        *self.handled.entry(step).or_default() += outcome.handled;
    }

    #[must_use]
    pub fn at(&self, step: Step, answer: u64) -> u64 {
        self.counts.get(&(step, answer)).copied().unwrap_or(0)
    }

    #[must_use]
    pub fn total(&self) -> u64 {
        self.counts.values().sum()
    }

    /// Pairs that can occur and were not reached, then pairs that were
    /// reached and can't occur.
    #[must_use]
    pub fn faults(&self) -> Vec<String> {
        let say = |step, answer, what| format!("{} with answer {answer}: {what}", step_name(step));
        let mut faults = Vec::new();
        for step in Step::ALL {
            let missing = can_occur(step).iter().filter(|a| self.at(step, **a) == 0);
            faults.extend(missing.map(|answer| say(step, *answer, "never reached")));
        }
        let odd = self.counts.keys();
        let odd = odd.filter(|(step, answer)| !can_occur(*step).contains(answer));
        faults.extend(odd.map(|(step, answer)| say(*step, *answer, "can't occur")));
        faults
    }
}

impl Display for Table {
    fn fmt(&self, f: &mut Formatter<'_>) -> fmt::Result {
        write!(f, "{:16}", "answer")?;
        (0..=13).try_for_each(|answer| write!(f, "{answer:>7}"))?;
        writeln!(f, "{:>9}", "handled")?;
        for step in Step::ALL {
            write!(f, "{:16}", step_name(step))?;
            for answer in 0..=13 {
                match self.at(step, answer) {
                    0 if !can_occur(step).contains(&answer) => write!(f, "{:>7}", ".")?,
                    count => write!(f, "{count:>7}")?,
                }
            }
            let handled = self.handled.get(&step).copied().unwrap_or(0);
            writeln!(f, "{handled:>9}")?;
        }
        Ok(())
    }
}
