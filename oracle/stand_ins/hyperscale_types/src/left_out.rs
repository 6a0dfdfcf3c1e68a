//! What document 01 leaves out: here for the six files to compile. The
//! methods that would decide something end the call at once, so that nothing
//! of them can slip into a comparison.

use std::collections::BTreeSet;

use crate::{BeaconState, BlockHeight, Epoch, ShardId, ValidatorId};

#[derive(Clone, Copy, Debug, PartialEq, Eq)]
pub struct Randomness(pub [u8; 32]);

impl Randomness {
    #[must_use]
    pub const fn as_bytes(&self) -> &[u8; 32] {
        &self.0
    }
}

macro_rules! zeroed {
    ($($name:ident)*) => {$(
        #[derive(Clone, Copy, Debug, PartialEq, Eq)]
        pub struct $name;

        impl $name {
            pub const ZERO: Self = Self;
        }
    )*};
}

zeroed!(StateRoot BlockHash WeightedTimestamp BeaconWitnessLeafCount DeclaredWork);

#[derive(Clone, Copy, Debug, PartialEq, Eq, PartialOrd, Ord)]
pub struct StakePoolId(pub u64);

#[derive(Clone, Copy, Debug, PartialEq, Eq, PartialOrd, Ord)]
pub struct Stake(u128);

impl Stake {
    pub const ZERO: Self = Self(0);

    #[must_use]
    pub const fn from_quanta(quanta: u128) -> Self {
        Self(quanta)
    }

    #[must_use]
    pub const fn quanta(self) -> u128 {
        self.0
    }

    #[must_use]
    pub const fn saturating_add(self, other: Self) -> Self {
        Self(self.0.saturating_add(other.0))
    }

    #[must_use]
    pub const fn saturating_sub(self, other: Self) -> Self {
        Self(self.0.saturating_sub(other.0))
    }
}

#[derive(Clone, Copy, Debug, PartialEq, Eq)]
pub struct Conviction {
    pub lifts_at: Epoch,
}

#[derive(Clone, Debug, PartialEq, Eq)]
pub struct PendingWithdrawal {
    pub amount: Stake,
    pub initiated_at_epoch: Epoch,
}

#[derive(Clone, Debug, PartialEq, Eq)]
pub struct StakePool {
    pub total_stake: Stake,
    pub released_cumulative: Stake,
    pub validators: BTreeSet<ValidatorId>,
    pub pending_withdrawals: Vec<PendingWithdrawal>,
    pub conviction: Option<Conviction>,
}

pub const UNBONDING_WINDOW_EPOCHS: u64 = 1;
pub const EMISSION_PARTICIPATION_WEIGHT: u64 = 1;
pub const EMISSION_WORK_WEIGHT: u64 = 1;
pub const EMISSION_STORAGE_WEIGHT: u64 = 1;
pub const EMISSIONS_PER_EPOCH: Stake = Stake(1);
pub const MIN_BEACON_COMMITTEE_SIZE: usize = 4;

impl StakePool {
    #[must_use]
    pub fn current_active_count(&self, _state: &BeaconState) -> usize {
        unimplemented!("stake is left out")
    }

    #[must_use]
    pub fn max_active_count(&self, _state: &BeaconState) -> usize {
        unimplemented!("stake is left out")
    }

    #[must_use]
    pub fn max_active_count_at(&self, _min_stake: Stake) -> usize {
        unimplemented!("stake is left out")
    }
}

#[derive(Clone, Copy, Debug, PartialEq, Eq)]
pub enum RecoveryCause {
    Fork,
    Halt,
}

#[derive(Clone, Debug, PartialEq, Eq)]
pub struct ShardRecovery {
    pub cause: RecoveryCause,
    pub rotated_at: Epoch,
    pub retained: Vec<ValidatorId>,
    pub attested_frontier: BlockHeight,
}

#[derive(Clone, Copy, Debug, PartialEq, Eq)]
pub enum TransitionCause {
    NaturalShuffle,
    MembershipChange,
}

#[derive(Clone, Debug, PartialEq, Eq)]
pub struct CommitteeTransition {
    pub from: Vec<ValidatorId>,
    pub to: Vec<ValidatorId>,
    pub cause: TransitionCause,
    pub at_slot: Epoch,
}

impl BeaconState {
    /// The floor is left out, so it never holds a rotation back.
    #[must_use]
    pub const fn beacon_at_floor(&self) -> bool {
        false
    }

    #[must_use]
    pub fn min_stake(&self) -> Stake {
        unimplemented!("stake is left out")
    }

    #[must_use]
    pub fn beacon_eligible(&self) -> Vec<ValidatorId> {
        unimplemented!("the beacon committee is left out")
    }

    #[must_use]
    pub fn recency_period_for(&self, _eligible: usize) -> u64 {
        unimplemented!("the beacon committee is left out")
    }

    #[must_use]
    pub fn pending_anchor_observers(&self) -> Vec<ValidatorId> {
        unimplemented!("the beacon committee is left out")
    }

    #[must_use]
    pub fn recovery_demand(&self, _reserve: usize) -> Vec<ShardId> {
        unimplemented!("recovery is left out")
    }

    #[must_use]
    pub fn drawable_pool_len(&self, _reserve: usize) -> usize {
        unimplemented!("recovery is left out")
    }

    pub fn record_recovery(&mut self, _shard: ShardId, _epoch: Epoch, _frontier: BlockHeight) {
        unimplemented!("recovery is left out")
    }
}
