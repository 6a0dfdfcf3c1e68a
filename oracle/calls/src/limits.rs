//! Boards at each limit of document 01.

use std::collections::BTreeMap;
use std::fmt::{self, Display, Formatter};

use board::{
    BOUNDARIES, Board, COMMITTEES, Kind, LAST_EPOCH, LAST_SHARD, MACHINES, MEMBERS, Place,
    RESHAPES, ROTATIONS, Reshape, Rotation, SEATS, Seat, overlap,
};

use crate::Rng;
use crate::disturb::near_shard;
use crate::passing::boundary;

/// A board filled up to one limit or to a few of them.
pub fn at_limits(rng: &mut Rng, board: &Board) -> Board {
    let mut board = board.clone();
    for _ in 0..rng.between(1, 3) {
        match rng.below(9) {
            0 => fill_committees(rng, &mut board),
            1 => fill_members(rng, &mut board),
            2 => fill_boundaries(rng, &mut board),
            3 => fill_rotations(rng, &mut board),
            4 => fill_reshapes(rng, &mut board),
            5 => fill_machines(rng, &mut board),
            6 => last_epoch(&mut board),
            7 => fill_seats(rng, &mut board),
            _ => drop(board.committees.remove(&near_shard(rng, &board))),
        }
    }
    if rng.chance(50) {
        make_due(rng, &mut board);
    }
    board
}

/// A reshape whose cut has come, so that the limits are tried by it.
fn make_due(rng: &mut Rng, board: &mut Board) {
    let targets: Vec<u64> = board.reshapes.keys().copied().collect();
    let Some(target) = rng.pick(&targets) else {
        return;
    };
    let members = board.committees.get(&target).cloned().unwrap_or_default();
    let epoch = board.settings.epoch;
    let reshape = board.reshapes.entry(target);
    reshape.and_modify(|reshape| {
        reshape.scheduled = Some(epoch);
        if reshape.kind == Kind::Split {
            let (left, right) = members.split_at(members.len() / 2);
            reshape.halves = [left.to_vec(), right.to_vec()];
        }
    });
}

/// How many rows to leave free: mostly none.
fn room(rng: &mut Rng) -> usize {
    if rng.chance(70) {
        0
    } else {
        rng.below(3) as usize
    }
}

/// A shard that no reshape names and nothing stands on.
fn far_shard(rng: &mut Rng, board: &Board) -> u64 {
    loop {
        let shard = rng.between(1000, LAST_SHARD);
        let named = board.reshapes.keys().any(|target| overlap(*target, shard));
        let stands = board.committees.contains_key(&shard) || board.boundaries.contains_key(&shard);
        if !named && !stands {
            return shard;
        }
    }
}

fn fill_committees(rng: &mut Rng, board: &mut Board) {
    let full = COMMITTEES - room(rng);
    while board.committees.len() < full {
        let shard = far_shard(rng, board);
        board.committees.insert(shard, Vec::new());
    }
}

/// New machines seated there while there is room for records, else strangers.
fn fill_members(rng: &mut Rng, board: &mut Board) {
    let shards: Vec<u64> = board.committees.keys().copied().collect();
    let Some(shard) = rng.pick(&shards) else {
        return;
    };
    let full = MEMBERS - room(rng) * rng.below(8) as usize;
    let recorded = rng.chance(60);
    while board.committees[&shard].len() < full {
        let id = rng.between(100_000, 999_999);
        let known = board.machines.contains_key(&id) || board.committees[&shard].contains(&id);
        if known {
            continue;
        }
        if recorded && board.machines.len() < MACHINES {
            let place = Place::Seated {
                shard,
                ready: rng.chance(80),
                stamp: board.settings.epoch,
            };
            board.machines.insert(id, place);
        }
        board.committees.entry(shard).or_default().push(id);
    }
}

fn fill_boundaries(rng: &mut Rng, board: &mut Board) {
    let full = BOUNDARIES - room(rng);
    while board.boundaries.len() < full {
        let shard = far_shard(rng, board);
        let row = boundary(rng, board.settings.epoch);
        board.boundaries.insert(shard, row);
    }
}

fn fill_rotations(rng: &mut Rng, board: &mut Board) {
    let full = ROTATIONS - room(rng);
    board.settings.interval = 1;
    board.settings.most = rng.between(1, 48);
    while board.rotations.len() < full {
        let shard = far_shard(rng, board);
        let row = Rotation {
            entrant: rng.below(100),
            opened: board.settings.epoch,
        };
        board.rotations.insert((shard, rng.word()), row);
    }
}

/// Splits far away, each with the empty committee and boundary it asks for
/// while there is room for them.
fn fill_reshapes(rng: &mut Rng, board: &mut Board) {
    let full = RESHAPES - room(rng);
    while board.reshapes.len() < full {
        let target = far_shard(rng, board) / 2;
        if board.reshapes.keys().any(|other| overlap(*other, target)) {
            continue;
        }
        let split = Reshape::admitted(Kind::Split, board.settings.epoch, BTreeMap::new());
        board.reshapes.insert(target, split);
        if board.committees.len() < COMMITTEES && board.boundaries.len() < BOUNDARIES {
            board.committees.insert(target, Vec::new());
            let row = boundary(rng, board.settings.epoch);
            board.boundaries.insert(target, row);
        }
    }
}

/// Seats of machines at first, then of strangers.
fn fill_seats(rng: &mut Rng, board: &mut Board) {
    let targets: Vec<u64> = board.reshapes.keys().copied().collect();
    let Some(target) = rng.pick(&targets) else {
        return;
    };
    let mut ids: Vec<u64> = board.machines.keys().copied().collect();
    rng.shuffle(&mut ids);
    let strangers = (0..SEATS as u64).map(|n| 1_000_000 + n);
    let mut ids = ids.into_iter().chain(strangers);
    let full = SEATS - room(rng);
    while board.reshapes[&target].seats.len() < full {
        let child = 2 * target + rng.below(2);
        let ready = rng.chance(60);
        let id = ids.next().unwrap_or_default();
        let reshape = board.reshapes.entry(target);
        reshape.and_modify(|r| {
            r.seats.entry(id).or_insert(Seat { child, ready });
        });
    }
}

fn fill_machines(rng: &mut Rng, board: &mut Board) {
    while board.machines.len() < MACHINES {
        board.machines.insert(rng.word(), Place::Pooled);
    }
}

fn last_epoch(board: &mut Board) {
    board.settings.epoch = LAST_EPOCH;
}

/// How many boards stood at each limit.
#[derive(Default)]
pub struct Reached([u64; 8]);

impl Reached {
    const NAMES: [&str; 8] = [
        "256 machines",
        "24 committees",
        "96 members",
        "48 boundaries",
        "48 rotations",
        "8 reshapes",
        "32 seats",
        "the last epoch",
    ];

    pub fn count(&mut self, board: &Board) {
        let members = board.committees.values().map(Vec::len).max();
        let seats = board.reshapes.values().map(|r| r.seats.len()).max();
        let at = [
            board.machines.len() == MACHINES,
            board.committees.len() == COMMITTEES,
            members == Some(MEMBERS),
            board.boundaries.len() == BOUNDARIES,
            board.rotations.len() == ROTATIONS,
            board.reshapes.len() == RESHAPES,
            seats == Some(SEATS),
            board.settings.epoch == LAST_EPOCH,
        ];
        for (count, at) in self.0.iter_mut().zip(at) {
            *count += u64::from(at);
        }
    }

    #[must_use]
    pub fn all(&self) -> bool {
        self.0.iter().all(|count| *count > 0)
    }
}

impl Display for Reached {
    fn fmt(&self, f: &mut Formatter<'_>) -> fmt::Result {
        let rows = Self::NAMES.iter().zip(self.0);
        let rows: Vec<String> = rows
            .map(|(name, count)| format!("{name} {count}"))
            .collect();
        write!(f, "calls on boards at a limit: {}", rows.join(", "))
    }
}
