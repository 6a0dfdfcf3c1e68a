//! The Rust's side: a step on its live state.

use hyperscale_types::{BeaconState, MergeHalf, PendingReshape, ShardId, ValidatorId};
use judge::SEED;
use original::state as rust;
use plain::{Args, Step};

use crate::added::{self, Counts};

/// One step, and its answer: 0 after the Rust's own function, which has none
/// and counts nothing.
pub fn act(state: &mut BeaconState, step: Step, args: Args, counts: &mut Counts) -> u64 {
    let target = ShardId(args.shard);
    let machine = ValidatorId(args.machine);
    match step {
        Step::Tick => added::tick(state, counts),
        Step::AdmitSplit => added::admit_split(state, target, counts),
        Step::MarkReady => added::mark_ready(state, target, machine, counts),
        Step::MarkQuiet => added::mark_quiet(state, target, args.side, counts),
        _ => {
            act_as_original(state, step, args);
            0
        }
    }
}

/// Of an admission of a merge it has the draw; the rest is the line that its
/// maps ask for.
fn act_as_original(state: &mut BeaconState, step: Step, args: Args) {
    let target = ShardId(args.shard);
    match step {
        Step::AdmitMerge => admit_merge(state, target),
        Step::DrawCohort => draw_cohort(state, target),
        Step::Lapse => rust::lapse_split(state, target),
        Step::ScheduleSplits => rust::schedule_ready_splits(state),
        Step::ScheduleMerges => rust::schedule_ready_merges(state),
        Step::CutSplits => rust::apply_scheduled_splits(state),
        Step::CutMerges => rust::apply_scheduled_merges(state),
        Step::Leave => rust::deactivate_to_insufficient_stake(state, ValidatorId(args.machine)),
        Step::Rotate => {
            state.given_victim = Some((target, ValidatorId(args.machine)));
            rust::run_shuffle_step(state);
        }
        Step::Resolve => rust::resolve_pending_rotations(state),
        Step::TimeOut => drop(rust::auto_ready_timeout(state)),
        _ => unreachable!("a step that the original lacks"),
    }
}

fn admit_merge(state: &mut BeaconState, target: ShardId) {
    let (left, right) = target.children();
    let merge = PendingReshape::Merge {
        keepers: rust::draw_merge_keepers(state, target),
        admitted: Some(added::now(state)),
        halves: [left, right]
            .map(|child| (child, MergeHalf { quiet: false }))
            .into(),
        scheduled_terminal: None,
    };
    state.pending_reshapes.insert(target, merge);
}

fn draw_cohort(state: &mut BeaconState, target: ShardId) {
    let drawn = rust::draw_split_cohort(state, target, &SEED);
    if let Some(PendingReshape::Split { cohort, .. }) = state.pending_reshapes.get_mut(&target) {
        *cohort = drawn;
    }
}
