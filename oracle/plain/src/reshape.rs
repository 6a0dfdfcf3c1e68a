//! Admissions, marks, the cohort and the keepers.

use std::collections::BTreeMap;

use board::{Id, Kind, LAST_TARGET, Place, Reshape, Seat, Shard, family, overlap};

use crate::Slip;
use crate::turn::{Result, Turn};

fn target_in_range(target: Shard) -> std::result::Result<(), u64> {
    if target == 0 || target > LAST_TARGET {
        Err(3)
    } else {
        Ok(())
    }
}

/// 7 of the answers: the family is free, and its committees as asked.
fn family_as_asked(turn: &Turn, target: Shard, kind: Kind) -> std::result::Result<(), u64> {
    let named = turn
        .board
        .reshapes
        .keys()
        .any(|other| overlap(*other, target));
    let stands = family(target).map(|shard| turn.board.committees.contains_key(&shard));
    let asked = match kind {
        Kind::Split => [true, false, false],
        Kind::Merge => [false, true, true],
    };
    if named || stands != asked {
        Err(7)
    } else {
        Ok(())
    }
}

fn boundaries_stand(turn: &Turn, shards: &[Shard]) -> std::result::Result<(), u64> {
    let stands = |shard: &Shard| turn.board.boundaries.contains_key(shard);
    if shards.iter().all(stands) {
        Ok(())
    } else {
        Err(5)
    }
}

/// An empty cohort, admitted now, not quiet.
pub fn admit_split(turn: &mut Turn, target: Shard) -> Result {
    target_in_range(target)?;
    family_as_asked(turn, target, Kind::Split)?;
    boundaries_stand(turn, &[target])?;
    let split = Reshape::admitted(Kind::Split, turn.epoch(), BTreeMap::new());
    turn.board.reshapes.insert(target, split);
    Ok(1)
}

/// Keepers are drawn from both children, the number handled.
pub fn admit_merge(turn: &mut Turn, target: Shard) -> Result {
    target_in_range(target)?;
    family_as_asked(turn, target, Kind::Merge)?;
    boundaries_stand(turn, &family(target)[1..])?;
    let mut seats = BTreeMap::new();
    let size = turn.size();
    for (child, share) in [(2 * target, size.div_ceil(2)), (2 * target + 1, size / 2)] {
        for id in keepers(turn, child, share)? {
            seats.insert(
                id,
                Seat {
                    child,
                    ready: false,
                },
            );
        }
    }
    let handled = seats.len() as u64;
    let merge = Reshape::admitted(Kind::Merge, turn.epoch(), seats);
    turn.board.reshapes.insert(target, merge);
    Ok(handled)
}

/// Members seated there: ready first, waiting only to fill, each sorted and
/// shuffled, the waiting even where they aren't needed.
fn keepers(turn: &mut Turn, child: Shard, share: usize) -> std::result::Result<Vec<Id>, u64> {
    let mut ready = seated_members(turn, child, true);
    let mut waiting = seated_members(turn, child, false);
    turn.draws.shuffle(&mut ready)?;
    if !(turn.slips(Slip::WaitingUnshuffled) && ready.len() >= share) {
        turn.draws.shuffle(&mut waiting)?;
    }
    ready.extend(waiting);
    ready.truncate(share);
    Ok(ready)
}

fn seated_members(turn: &Turn, child: Shard, want: bool) -> Vec<Id> {
    let wanted = |id: &Id| {
        matches!(
            turn.board.machines.get(id),
            Some(Place::Seated { shard, ready, .. }) if *shard == child && *ready == want
        )
    };
    let members = turn.board.committees.get(&child).into_iter().flatten();
    let mut ids: Vec<Id> = members.copied().filter(wanted).collect();
    ids.sort_unstable();
    ids
}

pub fn mark_ready(turn: &mut Turn, target: Shard, id: Id) -> Result {
    target_in_range(target)?;
    let reshape = turn.board.reshapes.get_mut(&target).ok_or(6u64)?;
    reshape.seats.get_mut(&id).ok_or(6u64)?.ready = true;
    Ok(1)
}

/// A split has side 0 only.
pub fn mark_quiet(turn: &mut Turn, target: Shard, side: u64) -> Result {
    if side > 1 {
        return Err(3);
    }
    target_in_range(target)?;
    let reshape = turn.board.reshapes.get_mut(&target).ok_or(6u64)?;
    if reshape.kind == Kind::Split && side == 1 {
        return Err(6);
    }
    reshape.quiet[side as usize] = true;
    Ok(1)
}

/// The pool is shuffled and the first S taken, the larger part to the left.
pub fn draw_cohort(turn: &mut Turn, target: Shard) -> Result {
    target_in_range(target)?;
    let split = turn.board.split_at(target);
    if !split.is_some_and(|split| split.scheduled.is_none() && split.seats.is_empty()) {
        return Err(6);
    }
    let mut pool = turn.board.pool();
    let size = turn.size();
    if pool.len() < size {
        return Err(12);
    }
    turn.draws.shuffle(&mut pool)?;
    let left = if turn.slips(Slip::CohortLeftSmaller) {
        size / 2
    } else {
        size.div_ceil(2)
    };
    for (i, id) in pool.into_iter().take(size).enumerate() {
        let child = if i < left { 2 * target } else { 2 * target + 1 };
        watch(turn, target, id, child);
    }
    Ok(size as u64)
}

fn watch(turn: &mut Turn, target: Shard, id: Id, child: Shard) {
    let stamp = turn.epoch();
    let shard = target;
    turn.set(id, Place::Observing { shard, stamp });
    turn.join(target, id);
    if let Some(split) = turn.board.reshapes.get_mut(&target) {
        split.seats.insert(
            id,
            Seat {
                child,
                ready: false,
            },
        );
    }
}

/// The cohort is emptied and struck; those observing the target are pooled.
pub fn lapse(turn: &mut Turn, target: Shard) -> Result {
    target_in_range(target)?;
    turn.board.split_at(target).ok_or(6u64)?;
    let mut cohort = BTreeMap::new();
    if let Some(split) = turn.board.reshapes.get_mut(&target) {
        std::mem::swap(&mut split.seats, &mut cohort);
    }
    let mut handled = 0;
    for id in cohort.keys() {
        turn.strike(target, *id);
        if turn
            .board
            .machines
            .get(id)
            .is_some_and(|place| place.observes(target))
        {
            turn.set(*id, Place::Pooled);
            handled += 1;
        }
    }
    Ok(handled)
}
