//! Boards with several reshapes in one phase, so that a batch has work on
//! many shards and may be refused after the first.

use std::collections::BTreeMap;

use board::{Board, Kind, MACHINES, Place, Reshape, Seat};
use plain::{Args, Step};

use crate::Rng;
use crate::choose::parents;

const ZEROS: [u64; 1024] = [0; 1024];

/// Reshapes on all shards, staffed and quiet: before their drain, stamped, or
/// due; now and then with something missing.
pub fn many_reshapes(rng: &mut Rng, board: &Board) -> Board {
    let mut board = board.clone();
    prepare(rng, &mut board);
    admit_all(rng, &mut board);
    staff_all(rng, &mut board);
    let phase = rng.below(5);
    if phase > 0 {
        batch(&mut board, Step::ScheduleSplits);
        batch(&mut board, Step::ScheduleMerges);
    }
    if phase > 2 {
        batch(&mut board, Step::ScheduleSplits);
        batch(&mut board, Step::ScheduleMerges);
        batch(&mut board, Step::Tick);
    }
    if rng.chance(55) {
        lose_something(rng, &mut board);
    }
    board
}

/// A batch that some reshape waits for, or the tick before it.
pub fn choose_batch(rng: &mut Rng, board: &Board) -> (Step, Args) {
    let mut steps = Vec::new();
    for reshape in board.reshapes.values() {
        let due = reshape.scheduled.map(|at| at <= board.settings.epoch);
        steps.push(match (reshape.kind, due) {
            (Kind::Split, None) => Step::ScheduleSplits,
            (Kind::Merge, None) => Step::ScheduleMerges,
            (Kind::Split, Some(true)) => Step::CutSplits,
            (Kind::Merge, Some(true)) => Step::CutMerges,
            (_, Some(false)) => Step::Tick,
        });
    }
    (rng.pick(&steps).unwrap_or(Step::Tick), Args::default())
}

fn batch(board: &mut Board, step: Step) {
    *board = plain::run(board, step, Args::default(), &ZEROS, None).board;
}

/// Two pooled for each shard at least, and mostly every member ready.
fn prepare(rng: &mut Rng, board: &mut Board) {
    while board.pool().len() < 2 * board.committees.len() && board.machines.len() < MACHINES {
        let id = rng.below(1000);
        board.machines.entry(id).or_insert(Place::Pooled);
    }
    let all = rng.chance(80);
    for place in board.machines.values_mut() {
        if let Place::Seated { ready, .. } = place {
            *ready |= all;
        }
    }
}

/// Merges first, splits first, or in any order: the later ones find their
/// family named and are refused.
fn admit_all(rng: &mut Rng, board: &mut Board) {
    let parents = parents(board).into_iter().map(|at| (Step::AdmitMerge, at));
    let shards = board.committees.keys().map(|at| (Step::AdmitSplit, *at));
    let mut targets: Vec<(Step, u64)> = parents.chain(shards).collect();
    match rng.below(3) {
        0 => targets.reverse(),
        1 => rng.shuffle(&mut targets),
        _ => {}
    }
    for (step, shard) in targets {
        let args = Args {
            shard,
            ..Args::default()
        };
        *board = plain::run(board, step, args, &ZEROS, None).board;
    }
}

/// Cohorts by hand, of whatever the pool has for each split.
fn staff_all(rng: &mut Rng, board: &mut Board) {
    let targets: Vec<u64> = board.reshapes.keys().copied().collect();
    let mut pool = board.pool();
    rng.shuffle(&mut pool);
    let share = pool.len() / targets.len().max(1);
    for target in targets {
        if board.split_at(target).is_some() {
            let cohort = pool.split_off(pool.len() - share.min(pool.len()));
            staff(board, target, &cohort);
        }
        let reshape = board.reshapes.entry(target);
        reshape.and_modify(|reshape| {
            reshape.quiet = [
                rng.chance(92),
                reshape.kind == Kind::Merge && rng.chance(96),
            ];
            let seats = reshape.seats.values_mut();
            seats.for_each(|seat| seat.ready = rng.chance(90));
        });
    }
}

fn staff(board: &mut Board, target: u64, cohort: &[u64]) {
    let size = board.settings.size as usize;
    let stamp = board.settings.epoch;
    let mut seats = BTreeMap::new();
    for (i, id) in cohort.iter().take(size).enumerate() {
        let child = 2 * target + (i % 2) as u64;
        seats.insert(
            *id,
            Seat {
                child,
                ready: false,
            },
        );
        let shard = target;
        board
            .machines
            .insert(*id, Place::Observing { shard, stamp });
        board.committees.entry(target).or_default().push(*id);
    }
    let split = board.reshapes.entry(target);
    split.and_modify(|split| split.seats = seats);
}

/// A boundary or a record that a schedule or a cut asks for.
fn lose_something(rng: &mut Rng, board: &mut Board) {
    let targets: Vec<u64> = board.reshapes.keys().copied().collect();
    let Some(target) = rng.pick(&targets) else {
        return;
    };
    let reshape = &board.reshapes[&target];
    let named = named(reshape);
    let bounded = match reshape.kind {
        Kind::Split => target,
        Kind::Merge => 2 * target + rng.below(2),
    };
    match rng.pick(&named) {
        Some(id) if rng.chance(50) => drop(board.machines.remove(&id)),
        _ => drop(board.boundaries.remove(&bounded)),
    }
}

fn named(reshape: &Reshape) -> Vec<u64> {
    let halves = reshape.halves.iter().flatten();
    halves.chain(reshape.seats.keys()).copied().collect()
}
