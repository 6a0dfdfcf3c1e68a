//! A step from one snapshot to the next.

use crate::{Answer, Board, Outcome, SNAPSHOT_MOST, ShardId, ValidatorId, WORDS, exports};

/// A step with its arguments, and its draws where it takes any: as the methods of [`Board`] of the same names.
#[derive(Clone, Copy, Debug, PartialEq, Eq)]
#[allow(missing_docs)]
pub enum Step<'a> {
    Tick,
    AdmitSplit(ShardId),
    AdmitMerge(ShardId, &'a [u64]),
    MarkSeatReady(ShardId, ValidatorId),
    MarkQuiet(ShardId, u64),
    DrawCohort(ShardId, &'a [u64]),
    Lapse(ShardId),
    ScheduleSplits(&'a [u64]),
    ScheduleMerges,
    CutSplits,
    CutMerges,
    Leave(ValidatorId, &'a [u64]),
    Rotate(ShardId, ValidatorId, &'a [u64]),
    Resolve,
    TimeOut,
}

impl<'a> Step<'a> {
    /// Its number, its arguments and its draws, as [`exports::apply`] takes them.
    #[must_use]
    pub const fn numbers(self) -> (u64, u64, u64, &'a [u64]) {
        match self {
            Self::Tick => (1, 0, 0, &[]),
            Self::AdmitSplit(target) => (2, target.0, 0, &[]),
            Self::AdmitMerge(target, draws) => (3, target.0, 0, draws),
            Self::MarkSeatReady(target, machine) => (4, target.0, machine.0, &[]),
            Self::MarkQuiet(target, side) => (5, target.0, side, &[]),
            Self::DrawCohort(target, draws) => (6, target.0, 0, draws),
            Self::Lapse(target) => (7, target.0, 0, &[]),
            Self::ScheduleSplits(draws) => (8, 0, 0, draws),
            Self::ScheduleMerges => (9, 0, 0, &[]),
            Self::CutSplits => (10, 0, 0, &[]),
            Self::CutMerges => (11, 0, 0, &[]),
            Self::Leave(machine, draws) => (12, machine.0, 0, draws),
            Self::Rotate(shard, victim, draws) => (13, shard.0, victim.0, draws),
            Self::Resolve => (14, 0, 0, &[]),
            Self::TimeOut => (15, 0, 0, &[]),
        }
    }
}

/// What [`Board::apply`] tells.
#[derive(Clone, Copy, Debug, PartialEq, Eq)]
#[must_use]
pub struct Applied {
    /// What the step tells; after its refusal the snapshot written is the one read.
    pub outcome: Outcome,
    /// How many bytes the snapshot has.
    pub length: usize,
}

impl<W: AsRef<[u64]> + AsMut<[u64]>> Board<W> {
    /// [`Board::read`], the step and [`Board::write`] in one call, in less than half of their time: it asks a board's
    /// rules once. What stood in the board before doesn't matter, and words and bytes past those written stay.
    ///
    /// # Errors
    ///
    /// 13 where the bytes are no snapshot, 11 where there are fewer than [`WORDS`] words or [`SNAPSHOT_MOST`] bytes; words
    /// and bytes are then as before.
    pub fn apply(
        &mut self,
        snapshot: &[u8],
        step: Step<'_>,
        after: &mut [u8],
    ) -> Result<Applied, Answer> {
        let words = self.words_mut();
        if words.len() < WORDS || after.len() < SNAPSHOT_MOST {
            return Err(Answer::NoRoom);
        }
        let (number, first, second, draws) = step.numbers();
        let mut results = [0; 3];
        let told = exports::apply(
            snapshot,
            number,
            first,
            second,
            draws,
            words,
            after,
            &mut results,
        );
        let answer = Answer::from_number(told).expect("a step answers 0 to 12, a read 13");
        let [handled, draws_used, length] = results;
        if answer == Answer::NotASnapshot {
            return Err(answer);
        }
        Ok(Applied {
            outcome: Outcome {
                answer,
                handled,
                draws_used,
            },
            length: length as usize,
        })
    }
}
