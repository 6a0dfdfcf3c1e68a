//! Boards that pass the seat check, made from nothing.

use board::{Board, Boundary, Id, LAST_EPOCH, LAST_SHARD, LAST_TARGET, MACHINES, Place, Settings};

use crate::Rng;

/// What a starting board may be at most.
#[derive(Clone, Copy, Debug)]
pub struct Bounds {
    pub size: (u64, u64),
    pub shards: u64,
    pub machines: usize,
}

pub fn passing_board(rng: &mut Rng, bounds: Bounds) -> Board {
    let mut board = Board::empty(settings(rng, bounds));
    let mut ids = ids(rng, bounds.machines.min(MACHINES));
    for shard in frontier(rng, bounds.shards) {
        seat_committee(rng, &mut board, shard, &mut ids);
    }
    stray_boundary(rng, &mut board);
    let size = board.settings.size;
    let fewest = if rng.chance(80) { size + 2 } else { 0 };
    for _ in 0..rng.between(fewest, size * 3) {
        let place = match rng.below(12) {
            0 => Place::Short,
            1 => Place::Other(rng.between(1, 255)),
            _ => Place::Pooled,
        };
        if let Some(id) = ids.pop() {
            board.machines.insert(id, place);
        }
    }
    board
}

fn settings(rng: &mut Rng, bounds: Bounds) -> Settings {
    let epoch = match rng.below(10) {
        0 => LAST_EPOCH - rng.below(12),
        1 => rng.below(LAST_EPOCH),
        _ => rng.below(20),
    };
    let (smallest, largest) = bounds.size;
    Settings {
        epoch,
        size: rng.between(smallest, largest),
        drain: rng.below(4),
        wait: rng.below(4),
        interval: if rng.chance(70) { 1 } else { rng.between(2, 3) },
        most: if rng.chance(10) { 0 } else { rng.between(1, 6) },
    }
}

/// Distinct ids in no order: small, or anywhere in 64 bits.
fn ids(rng: &mut Rng, count: usize) -> Vec<Id> {
    let wide = rng.chance(15);
    let mut ids: Vec<Id> = (1..=count as u64).map(|n| n + 10).collect();
    if wide {
        ids = ids.iter().map(|_| rng.word()).collect();
        ids.sort_unstable();
        ids.dedup();
    }
    rng.shuffle(&mut ids);
    ids
}

/// Shards of which none is another's ancestor, from one root.
fn frontier(rng: &mut Rng, most: u64) -> Vec<u64> {
    let root = match rng.below(24) {
        0 => rng.between(1, LAST_SHARD),
        1 => rng.between(1, LAST_TARGET),
        2 => rng.between(LAST_TARGET / 2, LAST_TARGET),
        _ => rng.between(1, 3),
    };
    let mut shards = vec![root];
    for _ in 1..rng.between(1, most) {
        let at = rng.below(shards.len() as u64) as usize;
        if shards[at] <= LAST_TARGET {
            let parent = shards.swap_remove(at);
            shards.extend([2 * parent, 2 * parent + 1]);
        }
    }
    shards.sort_unstable();
    shards
}

fn seat_committee(rng: &mut Rng, board: &mut Board, shard: u64, ids: &mut Vec<Id>) {
    let settings = board.settings;
    let count = match rng.below(6) {
        0 => settings.size.saturating_sub(rng.below(3)),
        1 => settings.size + rng.below(3),
        _ => settings.size,
    };
    let mut members = Vec::new();
    for _ in 0..count {
        let Some(id) = ids.pop() else { break };
        let place = Place::Seated {
            shard,
            ready: rng.chance(88),
            stamp: settings.epoch.saturating_sub(rng.below(8)),
        };
        board.machines.insert(id, place);
        members.push(id);
    }
    board.committees.insert(shard, members);
    board
        .boundaries
        .insert(shard, boundary(rng, settings.epoch));
}

pub fn boundary(rng: &mut Rng, epoch: u64) -> Boundary {
    let before = epoch.saturating_sub(rng.below(5));
    let terminal = rng.chance(10).then(|| epoch + rng.below(3));
    Boundary {
        height: if rng.chance(10) {
            rng.word()
        } else {
            rng.below(1000)
        },
        formed: before,
        last_live: epoch,
        terminal,
        admitted: terminal.map(|_| before),
    }
}

/// A boundary of a shard that has no committee, as a reshape leaves behind.
fn stray_boundary(rng: &mut Rng, board: &mut Board) {
    if rng.chance(30) {
        let shard = rng.between(1, 15);
        let row = boundary(rng, board.settings.epoch);
        board.boundaries.entry(shard).or_insert(row);
    }
}
