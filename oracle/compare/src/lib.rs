//! The original Rust and the plain reading, held against each other.

use std::fmt::{self, Display, Formatter};

use board::{read, write};
use calls::{Call, Made};
use judge::Turn;
use plain::{Args, Outcome, Step};

/// What stands behind a recorded outcome.
#[derive(Clone, Copy, Debug, PartialEq, Eq, PartialOrd, Ord)]
pub enum Witness {
    /// The original finished: its own board and counts are the same.
    Finished,
    /// The original stopped, and up to the shard where it did it is the same.
    Stopped,
    /// The original finished past a limit it doesn't have.
    PastLimit,
    /// The plain reading alone: the original has no such step or refusal.
    PlainAlone,
}

impl Display for Witness {
    fn fmt(&self, f: &mut Formatter<'_>) -> fmt::Result {
        f.write_str(match self {
            Self::Finished => "the original finished, with the same board and counts",
            Self::Stopped => "the original stopped, rolled back to the same board and counts",
            Self::PastLimit => "the original went past a limit that it doesn't have",
            Self::PlainAlone => "the plain reading alone",
        })
    }
}

/// The original's part in a step, where it has one.
#[must_use]
pub fn ported(step: Step, args: Args) -> Option<Turn> {
    match step {
        Step::AdmitMerge => Some(Turn::DrawKeepers(args.shard)),
        Step::DrawCohort => Some(Turn::DrawCohort(args.shard)),
        Step::Lapse => Some(Turn::Lapse(args.shard)),
        Step::ScheduleSplits => Some(Turn::ScheduleSplits),
        Step::ScheduleMerges => Some(Turn::ScheduleMerges),
        Step::CutSplits => Some(Turn::CutSplits),
        Step::CutMerges => Some(Turn::CutMerges),
        Step::Leave => Some(Turn::Leave(args.machine)),
        Step::Rotate => Some(Turn::Rotate(args.shard, args.machine)),
        Step::Resolve => Some(Turn::Resolve),
        Step::TimeOut => Some(Turn::TimeOut),
        Step::Tick | Step::AdmitSplit | Step::MarkReady | Step::MarkQuiet | Step::Read => None,
    }
}

/// Refusals that document 01 adds, so that the original is not asked.
#[must_use]
pub fn added(step: Step, answer: u64) -> bool {
    match answer {
        1 | 2 | 3 | 6 | 7 | 8 | 12 | 13 => true,
        4 => step == Step::Leave,
        5 => step == Step::AdmitMerge,
        _ => false,
    }
}

/// One recorded call against the original, on the words before it.
///
/// # Errors
///
/// What differs, in words.
pub fn against_rust(before: &[u64], made: &Made) -> Result<Witness, String> {
    let Call { step, args, draws } = &made.call;
    let Some(turn) = ported(*step, *args) else {
        return Ok(Witness::PlainAlone);
    };
    let Outcome {
        answer,
        handled,
        used,
    } = made.outcome;
    if added(*step, answer) {
        return Ok(Witness::PlainAlone);
    }
    let board = read(before).ok_or("the board before is not well-formed")?;
    let view = judge::view(&board, turn, draws);
    let said = (view.answer, view.handled, view.used);
    if said != (answer, handled, used) {
        let plain = (answer, handled, used);
        return Err(format!("the original's view {said:?}, recorded {plain:?}"));
    }
    if write(&view.board) != made.after {
        return Err("the boards after differ".to_owned());
    }
    Ok(match answer {
        0 => Witness::Finished,
        11 => Witness::PastLimit,
        _ => Witness::Stopped,
    })
}
