//! Document 01's cases C1 to C12, over anything that makes a call.

use std::collections::BTreeMap;

use board::{Board, Boundary, Id, Kind, Place, Reshape, Rotation, Seat, Settings};
use plain::{Args, Outcome, Step};

/// A call on a board: its outcome and the board after it.
pub type Caller = fn(&Board, Step, Args, &[u64]) -> (Outcome, Board);

#[must_use]
pub fn target(shard: u64) -> Args {
    Args {
        shard,
        ..Args::default()
    }
}

#[must_use]
pub fn done(handled: u64, used: u64) -> Outcome {
    Outcome {
        answer: 0,
        handled,
        used,
    }
}

/// Epoch 5, D=2, W=3, each epoch a shuffle, three rotations in flight.
#[must_use]
pub fn empty_board(size: u64) -> Board {
    Board::empty(Settings {
        epoch: 5,
        size,
        drain: 2,
        wait: 3,
        interval: 1,
        most: 3,
    })
}

#[must_use]
pub fn boundary(height: u64) -> Boundary {
    Boundary {
        height,
        formed: 1,
        last_live: 4,
        terminal: None,
        admitted: None,
    }
}

#[must_use]
pub fn seated(shard: u64, ready: bool) -> Place {
    let stamp = 2;
    Place::Seated {
        shard,
        ready,
        stamp,
    }
}

/// A committee of ready members, with its boundary.
pub fn put_committee(board: &mut Board, shard: u64, ids: impl Iterator<Item = Id>) {
    let ids: Vec<Id> = ids.collect();
    for id in &ids {
        board.machines.insert(*id, seated(shard, true));
    }
    board.committees.insert(shard, ids);
    board.boundaries.insert(shard, boundary(40 + shard));
}

pub fn put_pool(board: &mut Board, ids: impl Iterator<Item = Id>) {
    board.machines.extend(ids.map(|id| (id, Place::Pooled)));
}

/// A split of shard 1 with an empty cohort: S members from 11, S pooled from 21
/// (or past the members).
#[must_use]
pub fn split_board(size: u64) -> Board {
    let mut board = empty_board(size);
    put_committee(&mut board, 1, 11..11 + size);
    let pool = 21.max(11 + size);
    put_pool(&mut board, pool..pool + size);
    let split = Reshape::admitted(Kind::Split, 4, BTreeMap::new());
    board.reshapes.insert(1, split);
    board
}

/// A merge of shards 2 and 3 at 1, S members each, before its admission.
#[must_use]
pub fn children_board(size: u64) -> Board {
    let mut board = empty_board(size);
    put_committee(&mut board, 2, 11..11 + size);
    put_committee(&mut board, 3, 101..101 + size);
    board
}

/// The same with `ready` of the 2f+1 and more keepers marked.
#[must_use]
pub fn merge_board(size: u64, ready: usize) -> Board {
    let mut board = children_board(size);
    let left = (11..11 + size.div_ceil(2)).map(|id| (id, 2));
    let right = (101..101 + size / 2).map(|id| (id, 3));
    let keepers = left.chain(right).enumerate();
    let seat = |(i, (id, child))| {
        (
            id,
            Seat {
                child,
                ready: i < ready,
            },
        )
    };
    let merge = Reshape::admitted(Kind::Merge, 4, keepers.map(seat).collect());
    board.reshapes.insert(1, merge);
    board
}

fn c1_drawn(caller: Caller) -> Board {
    let board = split_board(4);
    let (outcome, after) = caller(&board, Step::DrawCohort, target(1), &[0, 0, 0]);
    assert_eq!(outcome, done(4, 3));
    after
}

fn children_of(board: &Board, child: u64) -> Vec<Id> {
    let seats = board.reshapes[&1].seats.iter();
    let own = seats.filter(|(_, seat)| seat.child == child);
    own.map(|(id, _)| *id).collect()
}

pub fn c1(caller: Caller) {
    let after = c1_drawn(caller);
    assert_eq!(children_of(&after, 2), [22, 23]);
    assert_eq!(children_of(&after, 3), [21, 24]);
    assert_eq!(after.committees[&1], [11, 12, 13, 14, 22, 23, 24, 21]);
    for id in 21..=24 {
        let watching = Place::Observing { shard: 1, stamp: 5 };
        assert_eq!(after.machines[&id], watching);
    }
}

/// C1's board with seats marked ready and quiet said.
fn c5_board(caller: Caller, ready: &[Id]) -> Board {
    let mut board = c1_drawn(caller);
    if let Some(split) = board.reshapes.get_mut(&1) {
        split.quiet[0] = true;
        for (id, seat) in &mut split.seats {
            seat.ready = ready.contains(id);
        }
    }
    board
}

fn schedule(caller: Caller, board: &Board, handled: u64) -> Board {
    let draws = [3, 2, 1];
    let (outcome, after) = caller(board, Step::ScheduleSplits, Args::default(), &draws);
    assert_eq!(outcome, done(handled, 3));
    after
}

pub fn c2(caller: Caller) {
    let board = split_board(5);
    let (_, mut board) = caller(&board, Step::DrawCohort, target(1), &[0; 4]);
    if let Some(split) = board.reshapes.get_mut(&1) {
        split.quiet[0] = true;
        split.seats.values_mut().for_each(|seat| seat.ready = true);
    }
    for _ in 0..2 {
        board = caller(&board, Step::ScheduleSplits, Args::default(), &[0; 4]).1;
    }
    board.settings.epoch += 1;
    let (outcome, after) = caller(&board, Step::CutSplits, Args::default(), &[]);
    assert_eq!(outcome, done(1, 0));
    assert_eq!(after.committees[&2].len(), 6);
    assert_eq!(after.committees[&3].len(), 4);
}

pub fn c3(caller: Caller) {
    for (size, quorum) in [(4, 3), (32, 21)] {
        for (ready, drains) in [(quorum - 1, None), (quorum, Some(7))] {
            let board = merge_board(size, ready);
            let (outcome, after) = caller(&board, Step::ScheduleMerges, Args::default(), &[]);
            assert_eq!(outcome, done(0, 0));
            assert_eq!(after.reshapes[&1].drain_by, drains);
        }
    }
}

pub fn c4(caller: Caller) {
    let after = schedule(caller, &c5_board(caller, &[]), 0);
    assert_eq!(after.reshapes[&1].drain_by, None);
}

pub fn c5_c6(caller: Caller) {
    let first = schedule(caller, &c5_board(caller, &[22, 24]), 0);
    assert_eq!(first.reshapes[&1].drain_by, Some(7));
    assert_eq!(first.reshapes[&1].scheduled, None);
    let second = schedule(caller, &first, 1);
    assert_eq!(second.reshapes[&1].scheduled, Some(6));
    assert_eq!(second.boundaries[&1].terminal, Some(6));
    assert_eq!(second.boundaries[&1].admitted, Some(4));
}

pub fn c7_c8(caller: Caller) {
    let first = schedule(caller, &c5_board(caller, &[22, 24]), 0);
    let mut board = schedule(caller, &first, 1);
    let (outcome, after) = caller(&board, Step::CutSplits, Args::default(), &[]);
    assert_eq!((outcome, &after), (done(0, 0), &board));
    board.settings.epoch = 6;
    let (outcome, after) = caller(&board, Step::CutSplits, Args::default(), &[]);
    assert_eq!(outcome, done(1, 0));
    assert_eq!(after.committees[&2], [11, 12, 22, 23]);
    assert_eq!(after.committees[&3], [13, 14, 21, 24]);
    for id in 21..=24 {
        assert!(matches!(
            after.machines[&id],
            Place::Seated { stamp: 6, .. }
        ));
    }
    for id in 11..=14 {
        assert!(matches!(
            after.machines[&id],
            Place::Seated { stamp: 2, .. }
        ));
    }
}

pub fn c9(caller: Caller) {
    let board = children_board(5);
    let (outcome, after) = caller(&board, Step::AdmitMerge, target(1), &[0; 8]);
    assert_eq!(outcome, done(5, 8));
    assert_eq!(children_of(&after, 2).len(), 3);
    assert_eq!(children_of(&after, 3).len(), 2);
}

pub fn c10(caller: Caller) {
    let mut board = empty_board(4);
    put_committee(&mut board, 1, 11..16);
    for (victim, entrant) in [(11, 13), (12, 14)] {
        let row = Rotation { entrant, opened: 5 };
        board.rotations.insert((1, victim), row);
    }
    let (outcome, after) = caller(&board, Step::Resolve, Args::default(), &[]);
    assert_eq!(outcome, done(2, 0));
    assert_eq!(after.machines[&11], seated(1, true));
    assert_eq!(after.machines[&12], Place::Pooled);
    assert_eq!(after.committees[&1], [11, 13, 14, 15]);
}

pub fn c11(caller: Caller) {
    let mut board = empty_board(4);
    let waiting = |ready| Place::Seated {
        shard: 1,
        ready,
        stamp: 6,
    };
    board.machines.insert(11, waiting(false));
    for (epoch, handled) in [(8, 0), (9, 1)] {
        board.settings.epoch = epoch;
        let (outcome, after) = caller(&board, Step::TimeOut, Args::default(), &[]);
        assert_eq!(outcome, done(handled, 0));
        assert_eq!(after.machines[&11], waiting(handled == 1));
    }
}

pub fn c12(caller: Caller) {
    let drawn = c1_drawn(caller);
    let (outcome, after) = caller(&drawn, Step::Lapse, target(1), &[]);
    assert_eq!(outcome, done(4, 0));
    assert_eq!(after, split_board(4));
}
