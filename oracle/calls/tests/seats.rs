//! The seat check, clause by clause: a passing board and an edit that fails.

use board::{Board, Place, Rotation, Seat, passes};
use calls::cases::{children_board, merge_board, seated, split_board};
use plain::{Args, Step};

/// Shard 1 splits, its cohort drawn, both quorums reached, scheduled.
fn scheduled_split() -> Board {
    let mut board = split_board(4);
    let target = Args {
        shard: 1,
        ..Args::default()
    };
    board = plain::run(&board, Step::DrawCohort, target, &[0; 3], None).board;
    if let Some(split) = board.reshapes.get_mut(&1) {
        split.quiet[0] = true;
        split.seats.values_mut().for_each(|seat| seat.ready = true);
    }
    for _ in 0..2 {
        let none = Args::default();
        board = plain::run(&board, Step::ScheduleSplits, none, &[0; 3], None).board;
    }
    assert!(board.reshapes[&1].scheduled.is_some());
    board
}

fn fails(mut board: Board, edit: impl Fn(&mut Board)) {
    assert!(passes(&board));
    edit(&mut board);
    assert!(board.well_formed() && !passes(&board));
}

fn rotation(board: &mut Board, shard: u64, victim: u64, entrant: u64) {
    let opened = 5;
    let row = Rotation { entrant, opened };
    board.rotations.insert((shard, victim), row);
}

#[test]
fn members_and_places() {
    fails(split_board(4), |b| {
        b.machines.insert(11, Place::Short);
    });
    fails(split_board(4), |b| {
        b.machines.insert(21, seated(1, true));
    });
    fails(split_board(4), |b| {
        b.machines.insert(11, seated(9, true));
    });
    fails(split_board(4), |b| {
        b.machines.remove(&11);
    });
    fails(split_board(4), |b| {
        b.committees.entry(1).or_default().push(99)
    });
}

#[test]
fn observers_and_seats() {
    let seat = Seat {
        child: 2,
        ready: false,
    };
    let add = |b: &mut Board, id| {
        let split = b.reshapes.entry(1);
        split.and_modify(|r| {
            r.seats.insert(id, seat);
        });
    };
    fails(scheduled_split(), |b| add(b, 11));
    fails(scheduled_split(), |b| add(b, 99));
    fails(scheduled_split(), |b| {
        let split = b.reshapes.entry(1);
        split.and_modify(|r| {
            r.seats.pop_first();
        });
    });
}

#[test]
fn rotation_parties() {
    let mut board = children_board(4);
    rotation(&mut board, 2, 11, 12);
    assert!(passes(&board));
    fails(board.clone(), |b| rotation(b, 2, 13, 13));
    fails(board.clone(), |b| rotation(b, 2, 13, 12));
    fails(board.clone(), |b| rotation(b, 2, 13, 11));
    fails(board.clone(), |b| rotation(b, 2, 13, 101));
    fails(board, |b| rotation(b, 3, 101, 99));
}

#[test]
fn scheduled_splits() {
    fails(scheduled_split(), |b| rotation(b, 1, 11, 12));
    fails(scheduled_split(), |b| {
        let split = b.reshapes.entry(1);
        split.and_modify(|r| {
            r.halves[0].pop();
        });
    });
    fails(scheduled_split(), |b| {
        let split = b.reshapes.entry(1);
        split.and_modify(|r| {
            let twice = r.halves[0][0];
            r.halves[1].push(twice);
        });
    });
}

#[test]
fn families_and_admissions() {
    fails(merge_board(4, 0), |b| {
        let merge = b.reshapes[&1].clone();
        let mut split = split_board(4).reshapes[&1].clone();
        split.admitted = merge.admitted;
        b.reshapes.insert(2, split);
    });
    fails(merge_board(4, 0), |b| {
        b.boundaries.remove(&3);
    });
    fails(merge_board(4, 0), |b| {
        b.committees.insert(1, Vec::new());
    });
    fails(split_board(4), |b| {
        b.boundaries.remove(&1);
    });
    fails(split_board(4), |b| {
        b.committees.insert(3, Vec::new());
    });
}
