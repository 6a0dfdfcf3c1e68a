//! Well-formed boards off the seat check: a board with a few edits.

use std::collections::BTreeMap;

use board::{Board, Id, Kind, LAST_SHARD, LAST_TARGET, Place, Reshape, Rotation, Seat};

use crate::Rng;
use crate::passing::boundary;

/// A board a few edits away; an edit that breaks the form is left out.
pub fn disturbed(rng: &mut Rng, board: &Board) -> Board {
    let mut board = board.clone();
    for _ in 0..rng.between(1, 8) {
        let mut edited = board.clone();
        edit(rng, &mut edited);
        if edited.well_formed() {
            board = edited;
        }
    }
    board
}

fn edit(rng: &mut Rng, board: &mut Board) {
    let shard = near_shard(rng, board);
    let id = near_id(rng, board);
    match rng.below(16) {
        0 | 1 => replace(rng, board, id),
        2 => drop(board.machines.remove(&id)),
        3 => drop(board.committees.remove(&shard)),
        4 | 5 => join(board, shard, id),
        6 => leave_list(rng, board, shard),
        7 => lose_boundary(rng, board, shard),
        8 => {
            let row = boundary(rng, board.settings.epoch);
            board.boundaries.insert(shard, row);
        }
        9 | 10 => rotate(rng, board, shard),
        11 => retime(rng, board),
        12 => new_reshape(rng, board, shard),
        _ => edit_reshape(rng, board),
    }
}

/// A shard of a committee, a boundary or a reshape, or one beside it.
pub fn near_shard(rng: &mut Rng, board: &Board) -> u64 {
    let committees = board.committees.keys();
    let named: Vec<u64> = committees
        .chain(board.boundaries.keys())
        .chain(board.reshapes.keys())
        .copied()
        .collect();
    let shard = rng.pick(&named).unwrap_or(1);
    let beside = [shard, shard, shard, 2 * shard, 2 * shard + 1, shard / 2];
    let shard = rng.pick(&beside).unwrap_or(shard);
    shard.clamp(1, LAST_SHARD)
}

/// Mostly a machine's id, else one without a record.
pub fn near_id(rng: &mut Rng, board: &Board) -> Id {
    let ids: Vec<Id> = board.machines.keys().copied().collect();
    match rng.pick(&ids) {
        Some(id) if rng.chance(93) => id,
        _ => rng.below(1000),
    }
}

fn replace(rng: &mut Rng, board: &mut Board, id: Id) {
    let shard = near_shard(rng, board);
    let stamp = board.settings.epoch.saturating_sub(rng.below(6));
    let place = match rng.below(8) {
        0 | 1 => Place::Pooled,
        2 => Place::Short,
        3 => Place::Other(rng.between(1, 255)),
        4 | 5 => Place::Observing { shard, stamp },
        _ => Place::Seated {
            shard,
            ready: rng.chance(60),
            stamp,
        },
    };
    board.machines.insert(id, place);
}

fn join(board: &mut Board, shard: u64, id: Id) {
    let members = board.committees.entry(shard).or_default();
    if !members.contains(&id) {
        members.push(id);
    }
}

fn leave_list(rng: &mut Rng, board: &mut Board, shard: u64) {
    if let Some(members) = board.committees.get_mut(&shard)
        && !members.is_empty()
    {
        let at = rng.below(members.len() as u64) as usize;
        members.remove(at);
    }
}

/// Mostly a reshape's boundary, where there is one to lose.
fn lose_boundary(rng: &mut Rng, board: &mut Board, shard: u64) {
    let targets: Vec<u64> = board.reshapes.keys().copied().collect();
    let named = rng.pick(&targets).filter(|_| rng.chance(70)).map(|target| {
        let merge = board.reshapes[&target].kind == Kind::Merge;
        if merge {
            2 * target + rng.below(2)
        } else {
            target
        }
    });
    board.boundaries.remove(&named.unwrap_or(shard));
}

fn rotate(rng: &mut Rng, board: &mut Board, shard: u64) {
    let members = board.committees.get(&shard).cloned().unwrap_or_default();
    let mut party = || match rng.pick(&members) {
        Some(id) if rng.chance(85) => id,
        _ => near_id(rng, board),
    };
    let (victim, entrant) = (party(), party());
    let opened = board.settings.epoch;
    let row = Rotation { entrant, opened };
    board.rotations.insert((shard, victim), row);
}

fn retime(rng: &mut Rng, board: &mut Board) {
    let settings = &mut board.settings;
    match rng.below(4) {
        0 => settings.epoch = settings.epoch.saturating_sub(1),
        1 => settings.interval = rng.between(1, 3),
        2 => settings.most = rng.below(6),
        _ => settings.wait = rng.below(3),
    }
}

fn new_reshape(rng: &mut Rng, board: &mut Board, target: u64) {
    let target = target.min(LAST_TARGET);
    let kind = if rng.chance(50) {
        Kind::Split
    } else {
        Kind::Merge
    };
    let reshape = Reshape::admitted(kind, board.settings.epoch, BTreeMap::new());
    board.reshapes.entry(target).or_insert(reshape);
    for _ in 0..rng.below(8) {
        edit_reshape_at(rng, board, target);
    }
}

fn edit_reshape(rng: &mut Rng, board: &mut Board) {
    let targets: Vec<u64> = board.reshapes.keys().copied().collect();
    let Some(target) = rng.pick(&targets) else {
        return;
    };
    for _ in 0..rng.between(1, 4) {
        edit_reshape_at(rng, board, target);
    }
}

fn edit_reshape_at(rng: &mut Rng, board: &mut Board, target: u64) {
    let epoch = board.settings.epoch;
    let id = near_id(rng, board);
    let members = board.committees.get(&target).cloned().unwrap_or_default();
    let Some(reshape) = board.reshapes.get_mut(&target) else {
        return;
    };
    match rng.below(8) {
        0 => schedule(rng, reshape, epoch, members),
        1 => reshape.quiet[0] = true,
        2 => reshape.quiet = [true, reshape.kind == Kind::Merge],
        3 => reshape.drain_by = Some(epoch + rng.below(3)),
        4 => reshape
            .seats
            .values_mut()
            .for_each(|seat| seat.ready = true),
        5 => drop(reshape.seats.remove(&id)),
        _ => {
            let child = 2 * target + rng.below(2);
            let ready = rng.chance(60);
            reshape.seats.insert(id, Seat { child, ready });
        }
    }
}

/// A terminal near the epoch, and halves of the members in any order.
fn schedule(rng: &mut Rng, reshape: &mut Reshape, epoch: u64, mut members: Vec<Id>) {
    reshape.scheduled = Some((epoch + rng.below(3)).saturating_sub(1));
    if reshape.kind == Kind::Merge {
        return;
    }
    rng.shuffle(&mut members);
    let parted = rng.below(members.len() as u64 + 1) as usize;
    let mut right = members.split_off(parted);
    if rng.chance(20) {
        right.extend(members.first());
    }
    if rng.chance(10) {
        right.push(rng.word());
    }
    reshape.halves = [members, right];
}
