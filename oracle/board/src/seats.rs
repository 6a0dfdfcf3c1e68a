//! The seat check of document 01, clause by clause.

use crate::{Board, Kind, Place, Shard};

/// Whether the board passes the seat check.
#[must_use]
pub fn passes(board: &Board) -> bool {
    board.well_formed()
        && members_agree(board)
        && observers_agree(board)
        && parties_agree(board)
        && scheduled_splits_agree(board)
        && families_apart(board)
        && board
            .reshapes
            .keys()
            .all(|target| admissible(board, *target))
}

/// The shards a reshape names: its target and both children.
#[must_use]
pub fn family(target: Shard) -> [Shard; 3] {
    [target, 2 * target, 2 * target + 1]
}

#[must_use]
pub fn overlap(one: Shard, other: Shard) -> bool {
    family(one)
        .iter()
        .any(|shard| family(other).contains(shard))
}

fn members_agree(board: &Board) -> bool {
    let here = |place: Place, shard: Shard| place.seated_on(shard) || place.observes(shard);
    let listed = board.committees.iter().all(|(shard, ids)| {
        ids.iter()
            .all(|id| board.machines.get(id).is_some_and(|p| here(*p, *shard)))
    });
    let placed = board.machines.iter().all(|(id, place)| match place {
        Place::Seated { shard, .. } | Place::Observing { shard, .. } => board
            .committees
            .get(shard)
            .is_some_and(|ids| ids.contains(id)),
        _ => true,
    });
    listed && placed
}

fn observers_agree(board: &Board) -> bool {
    let splits = board.reshapes.iter().filter(|(_, r)| r.kind == Kind::Split);
    let seated = splits.flat_map(|(target, r)| r.seats.keys().map(move |id| (target, id)));
    let watched = board.machines.iter().all(|(id, place)| match place {
        Place::Observing { shard, .. } => board
            .split_at(*shard)
            .is_some_and(|split| split.seats.contains_key(id)),
        _ => true,
    });
    watched
        && seated.into_iter().all(|(target, id)| {
            board
                .machines
                .get(id)
                .is_some_and(|place| place.observes(*target))
        })
}

/// Over all rotations of a shard together the parties are distinct.
fn parties_agree(board: &Board) -> bool {
    let mut parties: Vec<(Shard, u64)> = Vec::new();
    for ((shard, victim), row) in &board.rotations {
        parties.extend([(*shard, *victim), (*shard, row.entrant)]);
    }
    let seated = parties
        .iter()
        .all(|(shard, id)| board.is_seated(*id, *shard));
    parties.sort_unstable();
    seated && parties.windows(2).all(|pair| pair[0] != pair[1])
}

fn scheduled_splits_agree(board: &Board) -> bool {
    let scheduled = board
        .reshapes
        .iter()
        .filter(|(_, r)| r.kind == Kind::Split && r.scheduled.is_some());
    scheduled.into_iter().all(|(target, split)| {
        let rotating = board.rotations.keys().any(|(shard, _)| shard == target);
        let mut seated = board.machines.iter().filter(|(_, p)| p.seated_on(*target));
        !rotating
            && seated.all(|(id, _)| split.halves[0].contains(id) != split.halves[1].contains(id))
    })
}

fn families_apart(board: &Board) -> bool {
    let targets: Vec<Shard> = board.reshapes.keys().copied().collect();
    targets
        .iter()
        .enumerate()
        .all(|(i, one)| targets[i + 1..].iter().all(|other| !overlap(*one, *other)))
}

fn admissible(board: &Board, target: Shard) -> bool {
    let committee = |shard: Shard| board.committees.contains_key(&shard);
    let boundary = |shard: Shard| board.boundaries.contains_key(&shard);
    let [parent, left, right] = family(target);
    match board.reshapes[&target].kind {
        Kind::Split => {
            committee(parent) && boundary(parent) && !committee(left) && !committee(right)
        }
        Kind::Merge => {
            let children = [left, right];
            children
                .iter()
                .all(|child| committee(*child) && boundary(*child))
                && !committee(parent)
        }
    }
}
