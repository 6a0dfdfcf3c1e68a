//! The steps that document 01 adds, as a Rust node would have them over its
//! maps: the questions in document 01's order, the first fault deciding; the
//! answer's number, and into lent words the count handled and the draws used.

use std::collections::BTreeMap;

use board::{LAST_EPOCH, LAST_TARGET, RESHAPES};
use hyperscale_types::{Admission, BeaconState, MergeHalf, PendingReshape, ShardId, ValidatorId};
use judge::SEED;

/// The count handled and the draws used.
pub type Counts = [u64; 2];

const AT_LAST_EPOCH: u64 = 2;
const OUT_OF_RANGE: u64 = 3;
const NO_BOUNDARY: u64 = 5;
const NOT_THERE: u64 = 6;
const FAMILY_TAKEN: u64 = 7;
const NO_ROOM: u64 = 11;

fn is_target(shard: ShardId) -> bool {
    (1..=LAST_TARGET).contains(&shard.0)
}

fn refused(answer: u64, counts: &mut Counts) -> u64 {
    *counts = [0, 0];
    answer
}

fn done(counts: &mut Counts) -> u64 {
    *counts = [1, 0];
    0
}

/// Two families share a shard where one target is the other's or its parent.
fn overlap(one: ShardId, other: ShardId) -> bool {
    one == other || one.0 / 2 == other.0 || other.0 / 2 == one.0
}

/// Admitted in this epoch, not draining.
pub fn now(state: &BeaconState) -> Admission {
    Admission {
        at: state.current_epoch,
        drain_by: None,
    }
}

pub fn tick(state: &mut BeaconState, counts: &mut Counts) -> u64 {
    if LAST_EPOCH <= state.current_epoch.0 {
        return refused(AT_LAST_EPOCH, counts);
    }
    state.current_epoch = state.current_epoch.next();
    done(counts)
}

pub fn admit_split(state: &mut BeaconState, target: ShardId, counts: &mut Counts) -> u64 {
    if !is_target(target) {
        return refused(OUT_OF_RANGE, counts);
    }
    let mut others = state.pending_reshapes.keys();
    let committees = &state.next_shard_committees;
    let (left, right) = target.children();
    if others.any(|other| overlap(*other, target))
        || !committees.contains_key(&target)
        || committees.contains_key(&left)
        || committees.contains_key(&right)
    {
        return refused(FAMILY_TAKEN, counts);
    }
    if !state.boundaries.contains_key(&target) {
        return refused(NO_BOUNDARY, counts);
    }
    if RESHAPES <= state.pending_reshapes.len() {
        return refused(NO_ROOM, counts);
    }
    let split = PendingReshape::Split {
        cohort: BTreeMap::new(),
        cohort_seed: SEED,
        admitted: now(state),
        quiet: false,
        scheduled: None,
    };
    state.pending_reshapes.insert(target, split);
    done(counts)
}

pub fn mark_ready(
    state: &mut BeaconState,
    target: ShardId,
    machine: ValidatorId,
    counts: &mut Counts,
) -> u64 {
    if !is_target(target) {
        return refused(OUT_OF_RANGE, counts);
    }
    let ready = match state.pending_reshapes.get_mut(&target) {
        Some(PendingReshape::Split { cohort, .. }) => {
            cohort.get_mut(&machine).map(|seat| &mut seat.ready)
        }
        Some(PendingReshape::Merge { keepers, .. }) => {
            keepers.get_mut(&machine).map(|seat| &mut seat.ready)
        }
        None => None,
    };
    let Some(ready) = ready else {
        return refused(NOT_THERE, counts);
    };
    *ready = true;
    done(counts)
}

/// A split has side 0 only.
pub fn mark_quiet(state: &mut BeaconState, target: ShardId, side: u64, counts: &mut Counts) -> u64 {
    if !is_target(target) || 1 < side {
        return refused(OUT_OF_RANGE, counts);
    }
    match state.pending_reshapes.get_mut(&target) {
        Some(PendingReshape::Split { quiet, .. }) if side == 0 => *quiet = true,
        Some(PendingReshape::Merge { halves, .. }) => {
            let child = ShardId(2 * target.0 + side);
            halves.insert(child, MergeHalf { quiet: true });
        }
        _ => return refused(NOT_THERE, counts),
    }
    done(counts)
}
