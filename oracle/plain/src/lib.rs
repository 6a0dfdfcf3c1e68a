//! The plain reading of document 01: all fifteen steps with their answers,
//! counts and draws, written from its sentences alone. Nothing here may be
//! taken for the original Rust's own behaviour; that is the crate `judge`.

mod committee;
mod draws;
mod reshape;
mod schedule;
mod slip;
mod turn;

use board::{Board, read, read_bytes, write};

use draws::Draws;
use schedule::{
    cut_merge, cut_split, due_merges, due_splits, schedule_merge, schedule_split,
    unscheduled_merges, unscheduled_splits,
};
pub use slip::Slip;
use turn::{batch, single};

/// The steps by their code, 1 tick to 15 time out; 16 reads a snapshot.
#[derive(Clone, Copy, Debug, PartialEq, Eq, PartialOrd, Ord)]
#[repr(u64)]
pub enum Step {
    Tick = 1,
    AdmitSplit,
    AdmitMerge,
    MarkReady,
    MarkQuiet,
    DrawCohort,
    Lapse,
    ScheduleSplits,
    ScheduleMerges,
    CutSplits,
    CutMerges,
    Leave,
    Rotate,
    Resolve,
    TimeOut,
    Read,
}

impl Step {
    pub const ALL: [Self; 16] = [
        Self::Tick,
        Self::AdmitSplit,
        Self::AdmitMerge,
        Self::MarkReady,
        Self::MarkQuiet,
        Self::DrawCohort,
        Self::Lapse,
        Self::ScheduleSplits,
        Self::ScheduleMerges,
        Self::CutSplits,
        Self::CutMerges,
        Self::Leave,
        Self::Rotate,
        Self::Resolve,
        Self::TimeOut,
        Self::Read,
    ];

    #[must_use]
    pub fn from_code(code: u64) -> Option<Self> {
        Self::ALL.into_iter().find(|step| *step as u64 == code)
    }
}

/// The arguments of every call; a step ignores those it doesn't name.
#[derive(Clone, Copy, Debug, Default, PartialEq, Eq)]
pub struct Args {
    /// A shard, or a reshape's target.
    pub shard: u64,
    pub machine: u64,
    pub side: u64,
}

impl Args {
    /// The arguments with 0 where the step names none.
    #[must_use]
    pub fn of(self, step: Step) -> Self {
        let keep = |used: bool, value: u64| if used { value } else { 0 };
        let reshape = (Step::AdmitSplit..=Step::Lapse).contains(&step);
        let machine = [Step::MarkReady, Step::Leave, Step::Rotate].contains(&step);
        Self {
            shard: keep(reshape || step == Step::Rotate, self.shard),
            machine: keep(machine, self.machine),
            side: keep(step == Step::MarkQuiet, self.side),
        }
    }
}

#[derive(Clone, Copy, Debug, PartialEq, Eq)]
pub struct Outcome {
    pub answer: u64,
    pub handled: u64,
    pub used: u64,
}

/// An outcome, the board after it, and the largest draw each need allowed.
#[derive(Clone, Debug)]
pub struct Done {
    pub outcome: Outcome,
    pub board: Board,
    pub asked: Vec<u64>,
}

fn refused(answer: u64) -> Outcome {
    Outcome {
        answer,
        handled: 0,
        used: 0,
    }
}

/// The read of a snapshot's bytes.
#[must_use]
pub fn read_snapshot(bytes: &[u8]) -> Outcome {
    refused(if read_bytes(bytes).is_some() { 0 } else { 13 })
}

/// One call on a snapshot's words: the outcome and the words after it. A
/// refused read leaves the words as they were.
#[must_use]
pub fn call(words: &[u64], step: Step, args: Args, draws: &[u64]) -> (Outcome, Vec<u64>) {
    match (read(words), step) {
        (None, Step::Read) => (refused(13), words.to_vec()),
        (Some(board), Step::Read) => (refused(0), write(&board)),
        (None, _) => (refused(1), words.to_vec()),
        (Some(board), _) => {
            let done = run(&board, step, args, draws, None);
            (done.outcome, write(&done.board))
        }
    }
}

/// One step on a well-formed board.
///
/// # Panics
///
/// Where the step is the read of a snapshot, which is no step on a board.
#[must_use]
pub fn run(board: &Board, step: Step, args: Args, draws: &[u64], slip: Option<Slip>) -> Done {
    let draws = Draws::new(draws, slip);
    let Args {
        shard,
        machine,
        side,
    } = args;
    match step {
        Step::Tick => single(board, draws, committee::tick),
        Step::AdmitSplit => single(board, draws, |t| reshape::admit_split(t, shard)),
        Step::AdmitMerge => single(board, draws, |t| reshape::admit_merge(t, shard)),
        Step::MarkReady => single(board, draws, |t| reshape::mark_ready(t, shard, machine)),
        Step::MarkQuiet => single(board, draws, |t| reshape::mark_quiet(t, shard, side)),
        Step::DrawCohort => single(board, draws, |t| reshape::draw_cohort(t, shard)),
        Step::Lapse => single(board, draws, |t| reshape::lapse(t, shard)),
        Step::ScheduleSplits => batch(board, draws, unscheduled_splits(board), schedule_split),
        Step::ScheduleMerges => batch(board, draws, unscheduled_merges(board), schedule_merge),
        Step::CutSplits => batch(board, draws, due_splits(board), cut_split),
        Step::CutMerges => batch(board, draws, due_merges(board), cut_merge),
        Step::Leave => single(board, draws, |t| committee::leave(t, machine)),
        Step::Rotate => single(board, draws, |t| committee::rotate(t, shard, machine)),
        Step::Resolve => single(board, draws, committee::resolve),
        Step::TimeOut => single(board, draws, committee::time_out),
        Step::Read => panic!("reading a snapshot is no step on a board"),
    }
}
