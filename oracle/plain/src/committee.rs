//! Tick, leave, rotate, resolve and time out.

use board::{Epoch, Id, Kind, LAST_EPOCH, LAST_SHARD, Place, Rotation, Shard};

use crate::Slip;
use crate::turn::{Result, Turn};

/// Epoch plus one.
pub fn tick(turn: &mut Turn) -> Result {
    if turn.epoch() == LAST_EPOCH {
        return Err(2);
    }
    turn.board.settings.epoch += 1;
    Ok(1)
}

/// The machine is short of stake; a seat is refilled unless a rotation party
/// leaves or a scheduled split stands there.
pub fn leave(turn: &mut Turn, id: Id) -> Result {
    let place = *turn.board.machines.get(&id).ok_or(4u64)?;
    turn.set(id, Place::Short);
    match place {
        Place::Seated { shard, .. } => leave_seat(turn, id, shard),
        Place::Observing { shard, .. } => {
            turn.strike(shard, id);
            strike_reshape_seat(turn, shard, Kind::Split, id);
            Ok(0)
        }
        _ => Ok(0),
    }
}

fn leave_seat(turn: &mut Turn, id: Id, shard: Shard) -> Result {
    turn.strike(shard, id);
    // Shard 1 has no parent: 0 is no shard's number, so no merge is at it.
    strike_reshape_seat(turn, shard / 2, Kind::Merge, id);
    let rotations = &turn.board.rotations;
    let party = rotations
        .iter()
        .find(|((at, victim), row)| *at == shard && (*victim == id || row.entrant == id))
        .map(|(key, _)| *key);
    if let Some(key) = party {
        turn.board.rotations.remove(&key);
        if !turn.slips(Slip::FilledAfterParty) {
            return Ok(0);
        }
    }
    let split = turn.board.split_at(shard);
    let scheduled = split.is_some_and(|split| split.scheduled.is_some());
    if scheduled && !turn.slips(Slip::ScheduledRefilled) {
        return Ok(0);
    }
    turn.pool_draw(shard)
        .map(|drawn| u64::from(drawn.is_some()))
}

fn strike_reshape_seat(turn: &mut Turn, target: Shard, kind: Kind, id: Id) {
    if let Some(reshape) = turn.board.reshapes.get_mut(&target)
        && reshape.kind == kind
    {
        reshape.seats.remove(&id);
    }
}

/// Opens one rotation on the shard, its victim given.
pub fn rotate(turn: &mut Turn, shard: Shard, victim: Id) -> Result {
    if shard == 0 || shard > LAST_SHARD {
        return Err(3);
    }
    if !may_rotate(turn, shard) {
        return Ok(0);
    }
    let mut there = turn
        .board
        .rotations
        .iter()
        .filter(|((at, _), _)| *at == shard);
    let party = there.any(|((_, v), row)| *v == victim || row.entrant == victim);
    if party || !turn.board.is_seated(victim, shard) {
        return Err(8);
    }
    let Some(entrant) = turn.pool_draw(shard)? else {
        return Ok(0);
    };
    let opened = turn.epoch();
    let row = Rotation { entrant, opened };
    turn.board.rotations.insert((shard, victim), row);
    Ok(1)
}

fn may_rotate(turn: &Turn, shard: Shard) -> bool {
    let settings = turn.board.settings;
    let on_interval = settings.epoch != 0 && settings.epoch.is_multiple_of(settings.interval);
    on_interval
        && turn.board.committees.contains_key(&shard)
        && turn.board.split_at(shard).is_none()
        && in_flight(turn, shard) < settings.most
}

/// Rotations there whose entrant isn't seated and ready, on any shard.
fn in_flight(turn: &Turn, shard: Shard) -> u64 {
    let everywhere = turn.slips(Slip::InFlightEverywhere);
    let rotations = turn.board.rotations.iter();
    let there = rotations.filter(|((at, _), _)| *at == shard || everywhere);
    let syncing = there.filter(|(_, row)| {
        !matches!(
            turn.board.machines.get(&row.entrant),
            Some(Place::Seated { ready: true, .. })
        )
    });
    syncing.count() as u64
}

/// Closes the rotations whose entrant was ready and seated there when the
/// call began.
pub fn resolve(turn: &mut Turn) -> Result {
    let ready_there = |shard: Shard, entrant: Id| {
        matches!(
            turn.board.machines.get(&entrant),
            Some(Place::Seated { shard: at, ready: true, .. }) if *at == shard
        )
    };
    let rotations = &turn.board.rotations;
    let closing: Vec<(Shard, Id)> = rotations
        .iter()
        .filter(|((shard, _), row)| ready_there(*shard, row.entrant))
        .map(|(key, _)| *key)
        .collect();
    let at_the_start = rotations.clone();
    for (shard, victim) in &closing {
        turn.board.rotations.remove(&(*shard, *victim));
        let counted = if turn.slips(Slip::OpenAtTheStart) {
            &at_the_start
        } else {
            &turn.board.rotations
        };
        let open = counted.keys().filter(|(at, _)| at == shard).count();
        retire(turn, *shard, *victim, open);
    }
    Ok(closing.len() as u64)
}

/// The victim goes unless a committee there has no member to spare.
fn retire(turn: &mut Turn, shard: Shard, victim: Id, open: usize) {
    let members = turn.board.committees.get(&shard).map(Vec::len);
    if members.is_some_and(|members| members <= turn.size() + open) {
        return;
    }
    turn.strike(shard, victim);
    turn.pool_if_seated(victim, shard);
}

/// Waiting machines at or past the deadline become ready, stamp kept.
pub fn time_out(turn: &mut Turn) -> Result {
    let settings = turn.board.settings;
    let late = u64::from(turn.slips(Slip::DeadlineLate));
    let due = |stamp: Epoch| settings.epoch >= stamp + settings.wait + late;
    let mut handled = 0;
    for place in turn.board.machines.values_mut() {
        if let Place::Seated { ready, stamp, .. } = place
            && !*ready
            && due(*stamp)
        {
            *ready = true;
            handled += 1;
        }
    }
    Ok(handled)
}
