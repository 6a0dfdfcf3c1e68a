//! Pending splits and merges.

use std::collections::BTreeMap;

use crate::{Epoch, Randomness, ShardId, ValidatorId};

#[derive(Clone, Copy, Debug, PartialEq, Eq)]
pub struct Admission {
    pub at: Epoch,
    pub drain_by: Option<Epoch>,
}

#[derive(Clone, Copy, Debug, PartialEq, Eq)]
pub struct CohortSeat {
    pub child: ShardId,
    pub ready: bool,
}

#[derive(Clone, Copy, Debug, PartialEq, Eq)]
pub struct KeeperSeat {
    pub child: ShardId,
    pub ready: bool,
}

#[derive(Clone, Copy, Debug, PartialEq, Eq)]
pub struct MergeHalf {
    pub quiet: bool,
}

#[derive(Clone, Debug, PartialEq, Eq)]
pub struct ScheduledSplit {
    pub terminal: Epoch,
    pub halves: BTreeMap<ShardId, Vec<ValidatorId>>,
}

#[derive(Clone, Debug, PartialEq, Eq)]
pub enum PendingReshape {
    Split {
        cohort: BTreeMap<ValidatorId, CohortSeat>,
        cohort_seed: Randomness,
        admitted: Admission,
        quiet: bool,
        scheduled: Option<ScheduledSplit>,
    },
    Merge {
        keepers: BTreeMap<ValidatorId, KeeperSeat>,
        admitted: Option<Admission>,
        halves: BTreeMap<ShardId, MergeHalf>,
        scheduled_terminal: Option<Epoch>,
    },
}

impl PendingReshape {
    #[must_use]
    pub fn scheduled_terminal(&self) -> Option<Epoch> {
        match self {
            Self::Split { scheduled, .. } => scheduled.as_ref().map(|split| split.terminal),
            Self::Merge {
                scheduled_terminal, ..
            } => *scheduled_terminal,
        }
    }
}
