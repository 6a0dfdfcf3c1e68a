//! The ranges and limits of document 01, each written once.

use crate::Board;

pub const LAST_EPOCH: u64 = 4_294_967_295;
pub const OTHER_EPOCHS: u64 = 8_589_934_591;
pub const SMALLEST_SIZE: u64 = 4;
pub const LARGEST_SIZE: u64 = 32;
pub const LONGEST: u64 = 1_000_000;
pub const MOST_IN_FLIGHT: u64 = 48;
pub const LAST_SHARD: u64 = 65_535;
pub const LAST_TARGET: u64 = 32_767;
pub const LAST_MARK: u64 = 255;

pub const SETTINGS: usize = 6;
pub const MACHINES: usize = 256;
pub const COMMITTEES: usize = 24;
pub const MEMBERS: usize = 96;
pub const BOUNDARIES: usize = 48;
pub const ROTATIONS: usize = 48;
pub const RESHAPES: usize = 8;
pub const SEATS: usize = 32;
pub const HALF: usize = 48;

/// The longest snapshot, in words: 46,816 bytes.
pub const SNAPSHOT_WORDS: usize = 5_852;

/// Whether a result is within the limits of answer 11.
#[must_use]
pub fn within_limits(board: &Board) -> bool {
    board.machines.len() <= MACHINES
        && board.committees.len() <= COMMITTEES
        && board.boundaries.len() <= BOUNDARIES
        && board.rotations.len() <= ROTATIONS
        && board.reshapes.len() <= RESHAPES
        && board.committees.values().all(|ids| ids.len() <= MEMBERS)
        && board.committees.values().all(|ids| distinct(ids))
        && board.reshapes.values().all(|r| r.seats.len() <= SEATS)
        && board
            .reshapes
            .values()
            .all(|r| r.halves.iter().all(|half| half.len() <= HALF))
}

#[must_use]
pub fn distinct(ids: &[u64]) -> bool {
    let mut sorted = ids.to_vec();
    sorted.sort_unstable();
    sorted.windows(2).all(|pair| pair[0] < pair[1])
}
