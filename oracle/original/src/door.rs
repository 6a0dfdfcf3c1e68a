//! The ported functions are visible to their module's siblings alone; this
//! sibling passes them on, and does nothing else.

use std::collections::BTreeMap;

use hyperscale_types::{BeaconState, CohortSeat, KeeperSeat, Randomness, ShardId, ValidatorId};

use super::{committee, lifecycle, reshape, withdrawals};

pub fn draw_split_cohort(
    state: &mut BeaconState,
    target: ShardId,
    cohort_seed: &Randomness,
) -> BTreeMap<ValidatorId, CohortSeat> {
    reshape::draw_split_cohort(state, target, cohort_seed)
}

#[must_use]
pub fn draw_merge_keepers(
    state: &BeaconState,
    parent: ShardId,
) -> BTreeMap<ValidatorId, KeeperSeat> {
    reshape::draw_merge_keepers(state, parent)
}

pub fn lapse_split(state: &mut BeaconState, target: ShardId) {
    reshape::lapse_split(state, target);
}

pub fn schedule_ready_splits(state: &mut BeaconState) {
    reshape::schedule_ready_splits(state);
}

pub fn schedule_ready_merges(state: &mut BeaconState) {
    reshape::schedule_ready_merges(state);
}

pub fn apply_scheduled_splits(state: &mut BeaconState) {
    reshape::apply_scheduled_splits(state);
}

pub fn apply_scheduled_merges(state: &mut BeaconState) {
    reshape::apply_scheduled_merges(state);
}

pub fn deactivate_to_insufficient_stake(state: &mut BeaconState, victim_id: ValidatorId) {
    withdrawals::deactivate_to_insufficient_stake(state, victim_id);
}

pub fn run_shuffle_step(state: &mut BeaconState) {
    committee::run_shuffle_step(state);
}

pub fn resolve_pending_rotations(state: &mut BeaconState) {
    committee::resolve_pending_rotations(state);
}

pub fn auto_ready_timeout(state: &mut BeaconState) -> Vec<ValidatorId> {
    lifecycle::auto_ready_timeout(state)
}
