//! What is compared with the oracle: the proved library, or by tests one with
//! a fault in it.

use calls::Call;
use plain::{Outcome, Step};
use roster::{Board, ShardId, ValidatorId, exports};

use crate::Lent;

/// What one step is lent.
pub struct Loan<'a> {
    pub board: &'a mut Lent<u64>,
    pub draws: &'a mut Lent<u64>,
    pub results: &'a mut Lent<u64>,
}

/// What a step from snapshot to snapshot is lent.
pub struct Round<'a> {
    pub snapshot: &'a mut Lent<u8>,
    pub draws: &'a mut Lent<u64>,
    pub board: &'a mut Lent<u64>,
    pub after: &'a mut Lent<u8>,
    pub results: &'a mut Lent<u64>,
}

/// The exports, by their step: each gives the answer's number.
pub trait Subject {
    fn step(&mut self, call: &Call, loan: &mut Loan) -> u64;

    /// The same step by the wrapper, on words of its own.
    fn again(&mut self, call: &Call, board: &mut Board) -> Outcome;

    fn well_formed(&mut self, board: &[u64]) -> u64;

    fn seat_check(&mut self, board: &[u64]) -> u64;

    fn read(&mut self, snapshot: &mut Lent<u8>, board: &mut Lent<u64>) -> u64;

    fn write(&mut self, board: &[u64], snapshot: &mut Lent<u8>, length: &mut Lent<u64>) -> u64;

    /// The step of that number, with the call's arguments, in one call with the read and the write.
    fn apply(&mut self, number: u64, call: &Call, round: &mut Round) -> u64;
}

/// The proved library.
pub struct Library;

impl Subject for Library {
    fn step(&mut self, call: &Call, loan: &mut Loan) -> u64 {
        let results = loan.results.inner_mut();
        let results = results.try_into().expect("two words are lent");
        export(call, loan.board.inner_mut(), loan.draws.inner(), results)
    }

    fn again(&mut self, call: &Call, board: &mut Board) -> Outcome {
        let (shard, machine) = (ShardId(call.args.shard), ValidatorId(call.args.machine));
        let draws = &call.draws[..];
        let told = match call.step {
            Step::Tick => board.tick(),
            Step::AdmitSplit => board.admit_split(shard),
            Step::AdmitMerge => board.admit_merge(shard, draws),
            Step::MarkReady => board.mark_seat_ready(shard, machine),
            Step::MarkQuiet => board.mark_quiet(shard, call.args.side),
            Step::DrawCohort => board.draw_cohort(shard, draws),
            Step::Lapse => board.lapse(shard),
            Step::ScheduleSplits => board.schedule_splits(draws),
            Step::ScheduleMerges => board.schedule_merges(),
            Step::CutSplits => board.cut_splits(),
            Step::CutMerges => board.cut_merges(),
            Step::Leave => board.leave(machine, draws),
            Step::Rotate => board.rotate(shard, machine, draws),
            Step::Resolve => board.resolve(),
            Step::TimeOut => board.time_out(),
            Step::Read => panic!("a read is no step on a board"),
        };
        Outcome {
            answer: told.answer.number(),
            handled: told.handled,
            used: told.draws_used,
        }
    }

    fn well_formed(&mut self, board: &[u64]) -> u64 {
        exports::well_formed(board)
    }

    fn seat_check(&mut self, board: &[u64]) -> u64 {
        exports::seat_check(board)
    }

    fn read(&mut self, snapshot: &mut Lent<u8>, board: &mut Lent<u64>) -> u64 {
        exports::read(snapshot.inner(), board.inner_mut())
    }

    fn write(&mut self, board: &[u64], snapshot: &mut Lent<u8>, length: &mut Lent<u64>) -> u64 {
        exports::write(board, snapshot.inner_mut(), &mut length.inner_mut()[0])
    }

    fn apply(&mut self, number: u64, call: &Call, round: &mut Round) -> u64 {
        let (first, second) = arguments(call);
        let results = round.results.inner_mut();
        exports::apply(
            round.snapshot.inner(),
            number,
            first,
            second,
            round.draws.inner(),
            round.board.inner_mut(),
            round.after.inner_mut(),
            results.try_into().expect("three words are lent"),
        )
    }
}

/// The step's arguments in the order of its export.
#[must_use]
pub fn arguments(call: &Call) -> (u64, u64) {
    let (shard, machine, side) = (call.args.shard, call.args.machine, call.args.side);
    match call.step {
        Step::Leave => (machine, shard),
        Step::MarkQuiet => (shard, side),
        _ => (shard, machine),
    }
}

/// The export of the call's step; its answer.
///
/// # Panics
///
/// Where the call is a read, which is no step on a board.
pub fn export(call: &Call, board: &mut [u64], draws: &[u64], results: &mut [u64; 2]) -> u64 {
    let (shard, machine, side) = (call.args.shard, call.args.machine, call.args.side);
    match call.step {
        Step::Tick => exports::tick(board, results),
        Step::AdmitSplit => exports::admit_split(board, shard, results),
        Step::AdmitMerge => exports::admit_merge(board, shard, draws, results),
        Step::MarkReady => exports::mark_seat_ready(board, shard, machine, results),
        Step::MarkQuiet => exports::mark_quiet(board, shard, side, results),
        Step::DrawCohort => exports::draw_cohort(board, shard, draws, results),
        Step::Lapse => exports::lapse(board, shard, results),
        Step::ScheduleSplits => exports::schedule_splits(board, draws, results),
        Step::ScheduleMerges => exports::schedule_merges(board, results),
        Step::CutSplits => exports::cut_splits(board, results),
        Step::CutMerges => exports::cut_merges(board, results),
        Step::Leave => exports::leave(board, machine, draws, results),
        Step::Rotate => exports::rotate(board, shard, machine, draws, results),
        Step::Resolve => exports::resolve(board, results),
        Step::TimeOut => exports::time_out(board, results),
        Step::Read => panic!("a read is no step on a board"),
    }
}
