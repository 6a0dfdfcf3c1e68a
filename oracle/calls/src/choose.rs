//! The next call on a board: mostly one that moves its reshapes on, else any.

use board::{Board, Id, Kind, LAST_SHARD, LAST_TARGET, Place, RESHAPES, Reshape, family, overlap};
use plain::{Args, Step};

use crate::Rng;

pub fn choose(rng: &mut Rng, board: &Board) -> (Step, Args) {
    let (step, mut args) = if !board.rotations.is_empty() && rng.chance(15) {
        let steps = [Step::Tick, Step::TimeOut, Step::Resolve];
        (rng.pick(&steps).unwrap_or(Step::Tick), Args::default())
    } else if rng.chance(45) {
        useful(rng, board)
    } else {
        anything(rng, board)
    };
    if rng.chance(6) {
        spoil(rng, &mut args);
    }
    (step, args)
}

fn at(shard: u64) -> Args {
    Args {
        shard,
        ..Args::default()
    }
}

/// A step that a reshape waits for, or now and then an admission.
fn useful(rng: &mut Rng, board: &Board) -> (Step, Args) {
    let targets: Vec<u64> = board.reshapes.keys().copied().collect();
    let admit = if targets.len() < RESHAPES { 12 } else { 40 };
    match rng.pick(&targets) {
        Some(target) if !rng.chance(admit) => {
            let reshape = &board.reshapes[&target];
            match reshape.kind {
                Kind::Split => useful_split(rng, board, target, reshape),
                Kind::Merge => useful_merge(rng, board, target, reshape),
            }
        }
        _ => admission(rng, board),
    }
}

/// An admission, mostly of a family that no reshape names.
fn admission(rng: &mut Rng, board: &Board) -> (Step, Args) {
    let free = |target: &u64| !board.reshapes.keys().any(|other| overlap(*other, *target));
    let parents: Vec<u64> = parents(board).into_iter().filter(free).collect();
    let shards = board.committees.keys().copied().filter(free);
    let shards: Vec<u64> = shards
        .filter(|s| board.boundaries.contains_key(s))
        .collect();
    match (rng.pick(&parents), rng.pick(&shards)) {
        (Some(parent), _) if rng.chance(55) => (Step::AdmitMerge, at(parent)),
        (_, Some(shard)) if rng.chance(90) => (Step::AdmitSplit, at(shard)),
        _ if rng.chance(20) => (Step::AdmitSplit, at(some_shard(rng, board))),
        _ => anything(rng, board),
    }
}

fn useful_split(rng: &mut Rng, board: &Board, target: u64, split: &Reshape) -> (Step, Args) {
    if split.scheduled.is_some() {
        return due_or_tick(board, split, Step::CutSplits);
    }
    if split.seats.is_empty() {
        let enough = board.pool().len() as u64 >= board.settings.size;
        if enough || rng.chance(5) {
            return (Step::DrawCohort, at(target));
        }
        return anything(rng, board);
    }
    match waiting_seat(rng, split) {
        Some(machine) if rng.chance(70) => (
            Step::MarkReady,
            Args {
                machine,
                ..at(target)
            },
        ),
        _ if !split.quiet[0] && rng.chance(40) => (Step::MarkQuiet, at(target)),
        _ if rng.chance(30) => (Step::TimeOut, Args::default()),
        _ => (Step::ScheduleSplits, Args::default()),
    }
}

fn useful_merge(rng: &mut Rng, board: &Board, target: u64, merge: &Reshape) -> (Step, Args) {
    if merge.scheduled.is_some() {
        return due_or_tick(board, merge, Step::CutMerges);
    }
    match waiting_seat(rng, merge) {
        Some(machine) if rng.chance(70) => (
            Step::MarkReady,
            Args {
                machine,
                ..at(target)
            },
        ),
        _ if merge.quiet != [true, true] && rng.chance(60) => {
            let side = u64::from(merge.quiet[0]);
            (Step::MarkQuiet, Args { side, ..at(target) })
        }
        _ => (Step::ScheduleMerges, Args::default()),
    }
}

fn due_or_tick(board: &Board, reshape: &Reshape, cut: Step) -> (Step, Args) {
    let due = reshape
        .scheduled
        .is_some_and(|terminal| terminal <= board.settings.epoch);
    (if due { cut } else { Step::Tick }, Args::default())
}

fn waiting_seat(rng: &mut Rng, reshape: &Reshape) -> Option<Id> {
    let rows = reshape.seats.iter().filter(|(_, seat)| !seat.ready);
    let waiting: Vec<Id> = rows.map(|(id, _)| *id).collect();
    rng.pick(&waiting)
}

fn some_shard(rng: &mut Rng, board: &Board) -> u64 {
    let shards: Vec<u64> = board.committees.keys().copied().collect();
    rng.pick(&shards).unwrap_or(1)
}

/// Shards whose children both have a committee.
pub fn parents(board: &Board) -> Vec<u64> {
    let shards = board.committees.keys();
    let paired = shards.filter(|s| *s % 2 == 0 && board.committees.contains_key(&(*s + 1)));
    paired.map(|shard| shard / 2).collect()
}

fn some_parent(rng: &mut Rng, board: &Board) -> u64 {
    match rng.pick(&parents(board)) {
        Some(parent) if rng.chance(90) => parent,
        _ => some_shard(rng, board) / 2,
    }
}

/// A target of a reshape or a shard near one.
fn some_target(rng: &mut Rng, board: &Board) -> u64 {
    let targets: Vec<u64> = board.reshapes.keys().copied().collect();
    match rng.pick(&targets) {
        Some(target) if rng.chance(85) => target,
        Some(target) => family(target)[rng.below(3) as usize],
        None => some_shard(rng, board),
    }
}

fn some_machine(rng: &mut Rng, board: &Board) -> Id {
    let here = |place: &Place| matches!(place, Place::Seated { .. } | Place::Observing { .. });
    let placed_only = rng.chance(70);
    let rows = board.machines.iter();
    let rows = rows.filter(|(_, place)| !placed_only || here(place));
    let ids: Vec<Id> = rows.map(|(id, _)| *id).collect();
    rng.pick(&ids).unwrap_or(7)
}

fn some_seat(rng: &mut Rng, board: &Board, target: u64) -> Id {
    let seats = board.reshapes.get(&target).map(|r| &r.seats);
    let ids: Vec<Id> = seats.into_iter().flatten().map(|(id, _)| *id).collect();
    match rng.pick(&ids) {
        Some(id) if rng.chance(85) => id,
        _ => some_machine(rng, board),
    }
}

fn some_member(rng: &mut Rng, board: &Board, shard: u64) -> Id {
    let members = board.committees.get(&shard).cloned().unwrap_or_default();
    match rng.pick(&members) {
        Some(id) if rng.chance(90) => id,
        _ => some_machine(rng, board),
    }
}

fn anything(rng: &mut Rng, board: &Board) -> (Step, Args) {
    let (shard, target) = (some_shard(rng, board), some_target(rng, board));
    let step = weighted(rng);
    let args = match step {
        Step::AdmitSplit => at(shard),
        Step::AdmitMerge => at(some_parent(rng, board)),
        Step::DrawCohort | Step::Lapse => at(target),
        Step::MarkReady => Args {
            machine: some_seat(rng, board, target),
            ..at(target)
        },
        Step::MarkQuiet => Args {
            side: rng.below(2),
            ..at(target)
        },
        Step::Leave => Args {
            machine: some_machine(rng, board),
            ..Args::default()
        },
        Step::Rotate => rotation(rng, board),
        _ => Args::default(),
    };
    (step, args)
}

/// A member as victim, mostly on a shard that has no split.
fn rotation(rng: &mut Rng, board: &Board) -> Args {
    let shards = board.committees.keys().copied();
    let calm: Vec<u64> = shards.filter(|s| board.split_at(*s).is_none()).collect();
    let shard = match rng.pick(&calm) {
        Some(shard) if rng.chance(85) => shard,
        _ => some_shard(rng, board),
    };
    Args {
        machine: some_member(rng, board, shard),
        ..at(shard)
    }
}

fn weighted(rng: &mut Rng) -> Step {
    const WEIGHTS: [u64; 16] = [10, 3, 3, 6, 4, 4, 2, 6, 4, 4, 4, 9, 22, 8, 5, 1];
    let mut left = rng.below(WEIGHTS.iter().sum());
    for (step, weight) in Step::ALL.into_iter().zip(WEIGHTS) {
        if left < weight {
            return step;
        }
        left -= weight;
    }
    Step::Read
}

/// One argument out of range or naming nothing. An unused one stays 0.
fn spoil(rng: &mut Rng, args: &mut Args) {
    if args.side != 0 && rng.chance(50) {
        args.side = rng.between(2, 300);
    } else if args.machine != 0 && rng.chance(50) {
        let any = rng.word();
        args.machine = rng.pick(&[any, any % 9, 0, u64::MAX]).unwrap_or(any);
    } else if args.shard != 0 {
        let any = rng.word();
        let odd = [
            0,
            LAST_TARGET,
            LAST_TARGET + 1,
            LAST_SHARD,
            LAST_SHARD + 1,
            any,
        ];
        args.shard = rng.pick(&odd).unwrap_or(any);
    }
}
