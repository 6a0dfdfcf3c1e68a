//! Shard, machine, epoch and height, and the quorum's threshold.

#[derive(Clone, Copy, Debug, PartialEq, Eq, PartialOrd, Ord)]
pub struct ShardId(pub u64);

#[derive(Clone, Copy, Debug, PartialEq, Eq, PartialOrd, Ord)]
pub struct ValidatorId(pub u64);

#[derive(Clone, Copy, Debug, PartialEq, Eq, PartialOrd, Ord)]
pub struct Epoch(pub u64);

#[derive(Clone, Copy, Debug, PartialEq, Eq, PartialOrd, Ord)]
pub struct BlockHeight(pub u64);

impl ShardId {
    #[must_use]
    pub const fn inner(self) -> u64 {
        self.0
    }

    #[must_use]
    pub const fn children(self) -> (Self, Self) {
        (Self(2 * self.0), Self(2 * self.0 + 1))
    }

    #[must_use]
    pub const fn parent(self) -> Option<Self> {
        if self.0 <= 1 {
            None
        } else {
            Some(Self(self.0 / 2))
        }
    }
}

impl Epoch {
    pub const GENESIS: Self = Self(0);

    #[must_use]
    pub const fn inner(self) -> u64 {
        self.0
    }

    #[must_use]
    pub const fn next(self) -> Self {
        Self(self.0 + 1)
    }

    #[must_use]
    pub const fn saturating_add(self, epochs: u64) -> Self {
        Self(self.0.saturating_add(epochs))
    }
}

impl BlockHeight {
    pub const GENESIS: Self = Self(0);
}

/// f of document 01: (n-1)/3 rounded down.
#[must_use]
pub const fn byzantine_threshold(n: usize) -> usize {
    n.saturating_sub(1) / 3
}
