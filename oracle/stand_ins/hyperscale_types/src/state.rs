//! The beacon's state, as far as the seat roster goes.

use std::collections::BTreeMap;

use crate::{
    BeaconWitnessLeafCount, BlockHash, BlockHeight, DeclaredWork, Epoch, PendingReshape,
    Randomness, ShardId, ShardRecovery, StakePool, StakePoolId, StateRoot, ValidatorId,
    WeightedTimestamp,
};

#[derive(Clone, Copy, Debug, PartialEq, Eq)]
pub enum ValidatorStatus {
    Pooled,
    OnShard {
        shard: ShardId,
        ready: bool,
        placed_at_epoch: Epoch,
    },
    Observing {
        shard: ShardId,
        placed_at_epoch: Epoch,
    },
    InsufficientStake,
    /// Every status that document 01 calls other, by its mark.
    Other(u8),
}

#[derive(Clone, Debug, PartialEq, Eq)]
pub struct ValidatorRecord {
    pub status: ValidatorStatus,
    pub pool: StakePoolId,
    pub registered_at_epoch: Epoch,
}

#[derive(Clone, Debug, Default, PartialEq, Eq)]
pub struct ShardCommittee {
    pub members: Vec<ValidatorId>,
}

#[derive(Clone, Copy, Debug, PartialEq, Eq)]
pub struct PendingRotation {
    pub entrant: ValidatorId,
    pub opened_at: Epoch,
}

#[derive(Clone, Debug, PartialEq, Eq)]
pub struct ShardBoundary {
    pub boundary_qc: Option<()>,
    pub state_root: StateRoot,
    pub block_hash: BlockHash,
    pub height: BlockHeight,
    pub weighted_timestamp: WeightedTimestamp,
    pub witness_leaf_count: BeaconWitnessLeafCount,
    pub witness_base: BeaconWitnessLeafCount,
    pub cumulative_fees: u128,
    pub used: DeclaredWork,
    pub blocks: u64,
    pub substate_bytes: u64,
    pub formed: Epoch,
    pub last_live_epoch: Epoch,
    pub consecutive_misses: u64,
    pub terminal_epoch: Option<Epoch>,
    pub handoff_complete: Option<()>,
    pub terminal_delivered: bool,
    pub terminal_settled_txs: Option<()>,
    pub reshape_admitted_epoch: Option<Epoch>,
}

#[derive(Clone, Copy, Debug, PartialEq, Eq)]
pub struct BeaconChainConfig {
    pub shard_size: u32,
    pub beacon_committee_size: u32,
    pub drain_epochs: u64,
    pub ready_wait: u64,
    pub shuffle_interval: u64,
    pub most_in_flight: u64,
}

impl BeaconChainConfig {
    #[must_use]
    pub const fn reshape_drain_epochs(&self) -> u64 {
        self.drain_epochs
    }

    #[must_use]
    pub const fn shuffle_interval_epochs(&self) -> u64 {
        self.shuffle_interval
    }

    #[must_use]
    pub const fn max_rotations_in_flight(&self) -> u64 {
        self.most_in_flight
    }

    /// Document 01: the stamp plus W.
    #[must_use]
    pub const fn ready_deadline(&self, placed_at: Epoch) -> Epoch {
        placed_at.saturating_add(self.ready_wait)
    }
}

#[derive(Clone, Debug, PartialEq, Eq)]
pub struct BeaconState {
    pub current_epoch: Epoch,
    pub randomness: Randomness,
    pub chain_config: BeaconChainConfig,
    pub validators: BTreeMap<ValidatorId, ValidatorRecord>,
    pub next_shard_committees: BTreeMap<ShardId, ShardCommittee>,
    pub boundaries: BTreeMap<ShardId, ShardBoundary>,
    pub pending_rotations: BTreeMap<ShardId, BTreeMap<ValidatorId, PendingRotation>>,
    pub pending_reshapes: BTreeMap<ShardId, PendingReshape>,
    pub pending_recoveries: BTreeMap<ShardId, ShardRecovery>,
    pub fork_flagged: BTreeMap<ShardId, ()>,
    pub miss_counters: BTreeMap<ValidatorId, u64>,
    pub pools: BTreeMap<StakePoolId, StakePool>,
    pub committee: Vec<ValidatorId>,
    pub last_beacon_service: BTreeMap<ValidatorId, Epoch>,
    /// The one shard whose turn of the shuffle it is, and its victim.
    pub given_victim: Option<(ShardId, ValidatorId)>,
}

impl BeaconState {
    /// Document 01: every machine marked pooled, by rising id.
    #[must_use]
    pub fn pooled_validators(&self) -> Vec<ValidatorId> {
        self.validators
            .iter()
            .filter(|(_, record)| record.status == ValidatorStatus::Pooled)
            .map(|(id, _)| *id)
            .collect()
    }

    /// Document 01: the victim is given by the caller, for one shard.
    #[must_use]
    pub fn rotation_order(&self, shard: ShardId) -> Vec<ValidatorId> {
        self.given_victim
            .iter()
            .filter(|(turn, _)| *turn == shard)
            .map(|(_, victim)| *victim)
            .collect()
    }

    #[must_use]
    pub fn terminal_record_stands(&self, shard: ShardId) -> bool {
        self.boundaries
            .get(&shard)
            .is_some_and(|boundary| boundary.terminal_epoch.is_some())
    }
}
