//! The board of document 01 as plain data: its snapshot, the well-formed
//! check and the seat check. A second reading: nothing of the original Rust
//! is used here.

mod limits;
mod read;
mod seats;
mod write;

use std::collections::BTreeMap;

pub use limits::*;
pub use read::{read, read_bytes, structured};
pub use seats::{family, overlap, passes};
pub use write::{checksum, write};

pub type Id = u64;
pub type Shard = u64;
pub type Epoch = u64;
pub type Height = u64;

#[derive(Clone, Copy, Debug, PartialEq, Eq)]
pub struct Settings {
    pub epoch: Epoch,
    pub size: u64,
    pub drain: u64,
    pub wait: u64,
    pub interval: u64,
    pub most: u64,
}

#[derive(Clone, Copy, Debug, PartialEq, Eq)]
pub enum Place {
    Pooled,
    Seated {
        shard: Shard,
        ready: bool,
        stamp: Epoch,
    },
    Observing {
        shard: Shard,
        stamp: Epoch,
    },
    Short,
    Other(u64),
}

#[derive(Clone, Copy, Debug, PartialEq, Eq)]
pub struct Boundary {
    pub height: Height,
    pub formed: Epoch,
    pub last_live: Epoch,
    pub terminal: Option<Epoch>,
    pub admitted: Option<Epoch>,
}

#[derive(Clone, Copy, Debug, PartialEq, Eq)]
pub struct Rotation {
    pub entrant: Id,
    pub opened: Epoch,
}

#[derive(Clone, Copy, Debug, PartialEq, Eq)]
pub struct Seat {
    pub child: Shard,
    pub ready: bool,
}

#[derive(Clone, Copy, Debug, PartialEq, Eq)]
pub enum Kind {
    Split,
    Merge,
}

#[derive(Clone, Debug, PartialEq, Eq)]
pub struct Reshape {
    pub kind: Kind,
    pub admitted: Epoch,
    pub drain_by: Option<Epoch>,
    pub scheduled: Option<Epoch>,
    /// Left and right; a split says it on the left.
    pub quiet: [bool; 2],
    pub seats: BTreeMap<Id, Seat>,
    pub halves: [Vec<Id>; 2],
}

#[derive(Clone, Debug, PartialEq, Eq)]
pub struct Board {
    pub settings: Settings,
    pub machines: BTreeMap<Id, Place>,
    pub committees: BTreeMap<Shard, Vec<Id>>,
    pub boundaries: BTreeMap<Shard, Boundary>,
    /// By shard, then victim.
    pub rotations: BTreeMap<(Shard, Id), Rotation>,
    pub reshapes: BTreeMap<Shard, Reshape>,
}

impl Place {
    #[must_use]
    pub fn seated_on(self, on: Shard) -> bool {
        matches!(self, Self::Seated { shard, .. } if shard == on)
    }

    #[must_use]
    pub fn observes(self, on: Shard) -> bool {
        matches!(self, Self::Observing { shard, .. } if shard == on)
    }
}

impl Reshape {
    /// A reshape as document 01 admits it: now, not quiet, nothing drained.
    #[must_use]
    pub fn admitted(kind: Kind, epoch: Epoch, seats: BTreeMap<Id, Seat>) -> Self {
        Self {
            kind,
            admitted: epoch,
            drain_by: None,
            scheduled: None,
            quiet: [false; 2],
            seats,
            halves: [Vec::new(), Vec::new()],
        }
    }
}

impl Board {
    #[must_use]
    pub fn empty(settings: Settings) -> Self {
        Self {
            settings,
            machines: BTreeMap::new(),
            committees: BTreeMap::new(),
            boundaries: BTreeMap::new(),
            rotations: BTreeMap::new(),
            reshapes: BTreeMap::new(),
        }
    }

    /// Every machine marked pooled, by rising id.
    #[must_use]
    pub fn pool(&self) -> Vec<Id> {
        let pooled = |place: &Place| *place == Place::Pooled;
        let rows = self.machines.iter().filter(|(_, place)| pooled(place));
        rows.map(|(id, _)| *id).collect()
    }

    #[must_use]
    pub fn is_seated(&self, id: Id, shard: Shard) -> bool {
        self.machines
            .get(&id)
            .is_some_and(|place| place.seated_on(shard))
    }

    #[must_use]
    pub fn split_at(&self, shard: Shard) -> Option<&Reshape> {
        let reshape = self.reshapes.get(&shard)?;
        (reshape.kind == Kind::Split).then_some(reshape)
    }

    /// Well-formed: exactly what reads back from its own snapshot.
    #[must_use]
    pub fn well_formed(&self) -> bool {
        read(&write(self)).as_ref() == Some(self)
    }
}
