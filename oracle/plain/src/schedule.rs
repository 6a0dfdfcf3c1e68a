//! Scheduling and cutting, one reshape at a time.

use board::{Board, Boundary, Id, Kind, Place, Reshape, Seat, Shard, family};

use crate::Slip;
use crate::turn::{Result, Turn};

fn targets(board: &Board, wanted: impl Fn(&Reshape) -> bool) -> Vec<Shard> {
    let rows = board.reshapes.iter().filter(|(_, r)| wanted(r));
    rows.map(|(target, _)| *target).collect()
}

pub fn unscheduled_splits(board: &Board) -> Vec<Shard> {
    targets(board, |r| r.kind == Kind::Split && r.scheduled.is_none())
}

pub fn unscheduled_merges(board: &Board) -> Vec<Shard> {
    targets(board, |r| r.kind == Kind::Merge && r.scheduled.is_none())
}

fn due(board: &Board, kind: Kind) -> Vec<Shard> {
    let epoch = board.settings.epoch;
    targets(board, |r| {
        r.kind == kind && r.scheduled.is_some_and(|terminal| terminal <= epoch)
    })
}

pub fn due_splits(board: &Board) -> Vec<Shard> {
    due(board, Kind::Split)
}

pub fn due_merges(board: &Board) -> Vec<Shard> {
    due(board, Kind::Merge)
}

pub fn schedule_split(turn: &mut Turn, target: Shard) -> Result {
    abort_rotations(turn, target);
    let mut members = half_members(turn, target);
    turn.draws.shuffle(&mut members)?;
    let (left, right) = members.split_at(members.len().div_ceil(2));
    let counts = [
        ready_at(turn, target, left, 2 * target),
        ready_at(turn, target, right, 2 * target + 1),
    ];
    let quorum = turn.quorum();
    let passed = if turn.slips(Slip::OneQuorumTest) {
        counts[0] + counts[1] >= 2 * quorum
    } else {
        counts.iter().all(|count| *count >= quorum)
    };
    if !passed || !drained(turn, target) {
        return Ok(0);
    }
    let halves = [left.to_vec(), right.to_vec()];
    set_terminal(turn, target, &[target])?;
    if let Some(split) = turn.board.reshapes.get_mut(&target) {
        split.halves = halves;
    }
    Ok(1)
}

/// Entrants leave the committee and, if seated there, are pooled.
fn abort_rotations(turn: &mut Turn, shard: Shard) {
    let rotations = turn.board.rotations.iter();
    let there = rotations.filter(|((at, _), _)| *at == shard);
    let entrants: Vec<Id> = there.map(|(_, row)| row.entrant).collect();
    turn.drop_rotations(shard);
    if turn.slips(Slip::AbortKeepsEntrant) {
        return;
    }
    for entrant in entrants {
        turn.strike(shard, entrant);
        turn.pool_if_seated(entrant, shard);
    }
}

/// Committee members seated on the target, sorted.
fn half_members(turn: &Turn, target: Shard) -> Vec<Id> {
    let all = turn.slips(Slip::HalvesOfAllMembers);
    let members = turn.board.committees.get(&target).into_iter().flatten();
    let seated = members.filter(|id| all || turn.board.is_seated(**id, target));
    let mut ids: Vec<Id> = seated.copied().collect();
    ids.sort_unstable();
    ids
}

/// A half's ready members plus that child's ready seats.
fn ready_at(turn: &Turn, target: Shard, half: &[Id], child: Shard) -> usize {
    let machines = &turn.board.machines;
    let members = half
        .iter()
        .filter(|id| matches!(machines.get(id), Some(Place::Seated { ready: true, .. })));
    let seats = turn.board.reshapes[&target].seats.values();
    members.count()
        + seats
            .filter(|seat| seat.child == child && seat.ready)
            .count()
}

/// The first time drain-by is stamped and nothing is scheduled; later, quiet.
fn drained(turn: &mut Turn, target: Shard) -> bool {
    let drain_by = turn.epoch() + turn.board.settings.drain;
    let no_wait = turn.slips(Slip::NoDrainWait);
    let Some(reshape) = turn.board.reshapes.get_mut(&target) else {
        return false;
    };
    let quiet = match reshape.kind {
        Kind::Split => reshape.quiet[0],
        Kind::Merge => reshape.quiet == [true, true],
    };
    let stood = reshape.drain_by.is_some();
    reshape.drain_by = reshape.drain_by.or(Some(drain_by));
    (stood || no_wait) && quiet
}

/// The terminal is epoch plus one, and the boundaries get it too.
fn set_terminal(turn: &mut Turn, target: Shard, ending: &[Shard]) -> std::result::Result<(), u64> {
    let terminal = turn.epoch() + u64::from(!turn.slips(Slip::TerminalNow));
    let reshape = turn.board.reshapes.get_mut(&target).ok_or(6u64)?;
    reshape.scheduled = Some(terminal);
    let admitted = reshape.admitted;
    for shard in ending {
        let boundary = turn.board.boundaries.get_mut(shard).ok_or(5u64)?;
        boundary.terminal = Some(terminal);
        boundary.admitted = Some(admitted);
    }
    Ok(())
}

/// Quorum of all ready keepers together, then draining alike.
pub fn schedule_merge(turn: &mut Turn, target: Shard) -> Result {
    let seats = turn.board.reshapes[&target].seats.values();
    let ready = seats.filter(|seat| seat.ready).count();
    if ready < turn.quorum() || !drained(turn, target) {
        return Ok(0);
    }
    set_terminal(turn, target, &family(target)[1..])?;
    Ok(1)
}

/// The target's committee is parted between its children.
pub fn cut_split(turn: &mut Turn, target: Shard) -> Result {
    let height = turn.board.boundaries.get(&target).ok_or(5u64)?.height;
    let Some(split) = turn.board.reshapes.remove(&target) else {
        return Ok(0);
    };
    let mut named = split.halves.iter().flatten().chain(split.seats.keys());
    if named.any(|id| !turn.board.machines.contains_key(id)) {
        return Err(4);
    }
    turn.board.committees.remove(&target);
    turn.drop_rotations(target);
    for (half, child) in split.halves.iter().zip([2 * target, 2 * target + 1]) {
        let own = split.seats.iter().filter(|(_, seat)| seat.child == child);
        let assigned: Vec<Id> = half.iter().chain(own.map(|(id, _)| id)).copied().collect();
        let mut members = Vec::new();
        for id in assigned {
            if let Some(place) = moved_to_child(turn, &split, target, child, id) {
                turn.set(id, place);
                members.push(id);
            }
        }
        turn.board.committees.insert(child, members);
        new_boundary(turn, child, height);
    }
    Ok(1)
}

/// One seated on the target keeps ready and stamp; one observing that has a
/// seat takes the seat's ready, stamped now; others are passed over.
fn moved_to_child(
    turn: &Turn,
    split: &Reshape,
    target: Shard,
    child: Shard,
    id: Id,
) -> Option<Place> {
    match (turn.board.machines[&id], split.seats.get(&id)) {
        (
            Place::Seated {
                shard,
                ready,
                stamp,
            },
            _,
        ) if shard == target => Some(Place::Seated {
            shard: child,
            ready,
            stamp: if turn.slips(Slip::RestampedAtCut) {
                turn.epoch()
            } else {
                stamp
            },
        }),
        (Place::Observing { .. }, Some(seat)) => Some(Place::Seated {
            shard: child,
            ready: seat.ready && !turn.slips(Slip::SeatReadyForgotten),
            stamp: turn.epoch(),
        }),
        _ => None,
    }
}

fn new_boundary(turn: &mut Turn, shard: Shard, height: u64) {
    let epoch = turn.epoch();
    let row = Boundary {
        height,
        formed: epoch + 1,
        last_live: epoch,
        terminal: None,
        admitted: None,
    };
    turn.board.boundaries.insert(shard, row);
}

/// The children's keepers become the parent's committee, by id.
pub fn cut_merge(turn: &mut Turn, target: Shard) -> Result {
    let [_, left, right] = family(target);
    let boundaries = &turn.board.boundaries;
    let heights = [left, right].map(|child| boundaries.get(&child).map(|row| row.height));
    let [Some(left_height), Some(right_height)] = heights else {
        return Err(5);
    };
    let Some(merge) = turn.board.reshapes.remove(&target) else {
        return Ok(0);
    };
    let recorded = |id: &Id| turn.board.machines.contains_key(id);
    if !merge.seats.keys().all(recorded) {
        return Err(4);
    }
    for child in [left, right] {
        release_child(turn, &merge, child);
    }
    let mut members = Vec::new();
    for (id, seat) in &merge.seats {
        if let Some(place) = moved_to_parent(turn, target, *id, *seat) {
            turn.set(*id, place);
            members.push(*id);
        }
    }
    turn.board.committees.insert(target, members);
    let height = if turn.slips(Slip::LeftHeight) {
        left_height
    } else {
        left_height.max(right_height)
    };
    new_boundary(turn, target, height);
    Ok(1)
}

/// Members that aren't keepers are pooled from any place.
fn release_child(turn: &mut Turn, merge: &Reshape, child: Shard) {
    turn.drop_rotations(child);
    for id in turn.board.committees.remove(&child).unwrap_or_default() {
        if !merge.seats.contains_key(&id) && turn.board.machines.contains_key(&id) {
            turn.set(id, Place::Pooled);
        }
    }
}

/// A keeper seated on a child moves with the seat's ready, its stamp kept.
fn moved_to_parent(turn: &Turn, target: Shard, id: Id, seat: Seat) -> Option<Place> {
    let Place::Seated {
        shard,
        ready,
        stamp,
    } = turn.board.machines[&id]
    else {
        return None;
    };
    family(target)[1..]
        .contains(&shard)
        .then_some(Place::Seated {
            shard: target,
            ready: if turn.slips(Slip::KeepersOwnReady) {
                ready
            } else {
                seat.ready
            },
            stamp: if turn.slips(Slip::KeepersRestamped) {
                turn.epoch()
            } else {
                stamp
            },
        })
}
