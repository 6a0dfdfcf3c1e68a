//! Sentences of document 01 that the original can't judge: the order of the
//! checks, what a refusal counts, and the added steps.

use std::collections::BTreeMap;

use board::{
    BOUNDARIES, Board, COMMITTEES, Kind, LAST_EPOCH, LAST_SHARD, Place, Reshape, Rotation,
};
use calls::cases::{
    boundary, children_board, done, empty_board, merge_board, put_committee, put_pool, seated,
    split_board, target,
};
use plain::{Args, Done, Outcome, Step, run};

fn refused(answer: u64) -> Outcome {
    Outcome {
        answer,
        handled: 0,
        used: 0,
    }
}

fn call(board: &Board, step: Step, args: Args, draws: &[u64]) -> Done {
    assert!(board.well_formed());
    let after = run(board, step, args, draws, None);
    assert!(after.board.well_formed());
    after
}

fn says(board: &Board, step: Step, args: Args, draws: &[u64], outcome: Outcome) -> Board {
    let after = call(board, step, args, draws);
    assert_eq!(after.outcome, outcome);
    after.board
}

fn refuses(board: &Board, step: Step, args: Args, draws: &[u64], answer: u64) {
    let after = says(board, step, args, draws, refused(answer));
    assert_eq!(after, *board, "a refusal changes nothing");
}

const NONE: Args = Args {
    shard: 0,
    machine: 0,
    side: 0,
};

fn split() -> Reshape {
    Reshape::admitted(Kind::Split, 4, BTreeMap::new())
}

#[test]
fn ticks() {
    let mut board = empty_board(4);
    let after = says(&board, Step::Tick, NONE, &[], done(1, 0));
    assert_eq!(after.settings.epoch, 6);
    board.settings.epoch = LAST_EPOCH;
    refuses(&board, Step::Tick, NONE, &[], 2);
}

#[test]
fn ranges_come_first() {
    let board = split_board(4);
    for step in [
        Step::AdmitSplit,
        Step::AdmitMerge,
        Step::MarkReady,
        Step::MarkQuiet,
        Step::DrawCohort,
        Step::Lapse,
    ] {
        for shard in [0, 32_768, LAST_SHARD, u64::MAX] {
            refuses(&board, step, target(shard), &[], 3);
        }
    }
    for shard in [0, LAST_SHARD + 1] {
        refuses(&board, Step::Rotate, target(shard), &[], 3);
    }
    says(&board, Step::Rotate, target(LAST_SHARD), &[], done(0, 0));
    for (shard, side, answer) in [(1, 2, 3), (9, 2, 3), (1, 1, 6), (9, 0, 6)] {
        let args = Args {
            side,
            ..target(shard)
        };
        refuses(&board, Step::MarkQuiet, args, &[], answer);
    }
}

#[test]
fn marks_stand_and_are_made_again() {
    let mut board = merge_board(4, 0);
    let seat = Args {
        machine: 11,
        ..target(1)
    };
    let right = Args {
        side: 1,
        ..target(1)
    };
    for _ in 0..2 {
        board = says(&board, Step::MarkReady, seat, &[], done(1, 0));
        board = says(&board, Step::MarkQuiet, right, &[], done(1, 0));
    }
    assert!(board.reshapes[&1].seats[&11].ready);
    assert_eq!(board.reshapes[&1].quiet, [false, true]);
    let stranger = Args {
        machine: 13,
        ..target(1)
    };
    refuses(&board, Step::MarkReady, stranger, &[], 6);
}

#[test]
fn an_admission_asks_7_then_5_then_draws_then_11() {
    let mut board = children_board(4);
    for at in 100..108 {
        board.reshapes.insert(at, split());
    }
    refuses(&board, Step::AdmitMerge, target(1), &[0; 6], 11);
    refuses(&board, Step::AdmitMerge, target(1), &[0; 5], 9);
    refuses(&board, Step::AdmitMerge, target(1), &[4], 10);
    refuses(&board, Step::AdmitSplit, target(2), &[], 11);
    board.boundaries.clear();
    refuses(&board, Step::AdmitMerge, target(1), &[], 5);
    refuses(&board, Step::AdmitSplit, target(2), &[], 5);
    board.committees.insert(1, Vec::new());
    board.committees.insert(4, Vec::new());
    refuses(&board, Step::AdmitMerge, target(1), &[], 7);
    refuses(&board, Step::AdmitSplit, target(2), &[], 7);
}

#[test]
fn a_family_is_named_once() {
    let mut board = children_board(4);
    let after = says(&board, Step::AdmitSplit, target(2), &[], done(1, 0));
    assert_eq!(after.reshapes[&2].admitted, 5);
    refuses(&after, Step::AdmitSplit, target(2), &[], 7);
    refuses(&after, Step::AdmitMerge, target(1), &[0; 6], 7);
    board.reshapes.insert(5, split());
    refuses(&board, Step::AdmitSplit, target(2), &[], 7);
    says(&board, Step::AdmitSplit, target(3), &[], done(1, 0));
}

#[test]
fn keepers_draw_for_the_waiting_too() {
    let mut board = children_board(4);
    board.machines.insert(11, seated(2, false));
    board.machines.insert(12, seated(2, false));
    // Left: two ready, two waiting; right: four ready.
    let after = says(&board, Step::AdmitMerge, target(1), &[0; 5], done(4, 5));
    let keepers: Vec<u64> = after.reshapes[&1].seats.keys().copied().collect();
    assert_eq!(keepers, [13, 14, 102, 103]);
    board.machines.clear();
    says(&board, Step::AdmitMerge, target(1), &[], done(0, 0));
}

#[test]
fn draws_are_checked_as_they_are_needed() {
    let board = split_board(4);
    refuses(&board, Step::DrawCohort, target(1), &[9], 10);
    refuses(&board, Step::DrawCohort, target(1), &[0, 0], 9);
    refuses(&board, Step::DrawCohort, target(1), &[0, 9], 10);
    let spare = [0, 0, 0, u64::MAX];
    says(&board, Step::DrawCohort, target(1), &spare, done(4, 3));
}

#[test]
fn a_pool_of_one_takes_a_draw_and_none_takes_none() {
    let mut board = children_board(4);
    let leave = Args {
        machine: 11,
        ..NONE
    };
    board.committees.remove(&2);
    let after = says(&board, Step::Leave, leave, &[], done(0, 0));
    assert!(!after.committees.contains_key(&2));
    put_pool(&mut board, 200..201);
    refuses(&board, Step::Leave, leave, &[], 9);
    refuses(&board, Step::Leave, leave, &[1], 10);
    let after = says(&board, Step::Leave, leave, &[0], done(1, 1));
    assert_eq!(after.committees[&2], [200]);
}

#[test]
fn a_machine_of_any_id_leaves() {
    let mut board = empty_board(4);
    for place in [Place::Short, Place::Other(7), Place::Pooled] {
        board.machines.insert(0, place);
        let after = says(&board, Step::Leave, NONE, &[], done(0, 0));
        assert_eq!(after.machines[&0], Place::Short);
    }
    board.machines.clear();
    refuses(&board, Step::Leave, NONE, &[], 4);
}

/// Shard 1 as in `split_board`, with a rotation, and a split at 6 of four.
fn two_splits() -> Board {
    let mut board = split_board(4);
    let row = Rotation {
        entrant: 14,
        opened: 5,
    };
    board.rotations.insert((1, 11), row);
    put_committee(&mut board, 6, 31..35);
    board.reshapes.insert(6, split());
    board
}

#[test]
fn a_shard_whose_gate_fails_has_finished() {
    let board = two_splits();
    let after = call(&board, Step::ScheduleSplits, NONE, &[0, 0, 3]);
    let outcome = Outcome {
        used: 2,
        ..refused(9)
    };
    // Shard 6 needs three draws and finds one.
    assert_eq!(after.outcome, outcome);
    assert!(after.board.rotations.is_empty());
    assert_eq!(after.board.machines[&14], Place::Pooled);
}

#[test]
fn a_refused_shards_aborts_are_undone() {
    let board = two_splits();
    refuses(&board, Step::ScheduleSplits, NONE, &[0], 9);
    refuses(&board, Step::ScheduleSplits, NONE, &[3], 10);
}

#[test]
fn scheduling_asks_for_the_boundary_where_it_marks_it() {
    let mut board = merge_board(4, 3);
    board.boundaries.remove(&3);
    let mut board = says(&board, Step::ScheduleMerges, NONE, &[], done(0, 0));
    assert_eq!(board.reshapes[&1].drain_by, Some(7));
    board = says(&board, Step::ScheduleMerges, NONE, &[], done(0, 0));
    board.reshapes.entry(1).and_modify(|r| r.quiet = [true; 2]);
    refuses(&board, Step::ScheduleMerges, NONE, &[], 5);
}

fn due(at: u64, board: &mut Board) {
    let scheduled = Some(5);
    let row = Reshape {
        scheduled,
        ..split()
    };
    board.reshapes.insert(at, row);
}

#[test]
fn a_cut_may_make_the_boundary_that_a_later_one_lacked() {
    let mut board = split_board(4);
    due(1, &mut board);
    due(2, &mut board);
    let after = says(&board, Step::CutSplits, NONE, &[], done(2, 0));
    let shards: Vec<u64> = after.boundaries.keys().copied().collect();
    assert_eq!(shards, [1, 2, 3, 4, 5]);
}

#[test]
fn replaced_rows_need_no_room() {
    let mut board = split_board(4);
    due(1, &mut board);
    put_committee(&mut board, 2, 0..0);
    put_committee(&mut board, 3, 0..0);
    let mut far = 1000..;
    while board.committees.len() < COMMITTEES {
        board.committees.extend(far.next().map(|s| (s, Vec::new())));
    }
    while board.boundaries.len() < BOUNDARIES {
        board
            .boundaries
            .extend(far.next().map(|s| (s, boundary(1))));
    }
    says(&board, Step::CutSplits, NONE, &[], done(1, 0));
}

#[test]
fn an_unmet_condition_comes_before_the_victim() {
    let machine_of = |shard, machine| Args {
        machine,
        ..target(shard)
    };
    let stays = |board: &Board, args| {
        says(board, Step::Rotate, args, &[], done(0, 0));
    };
    let mut board = children_board(4);
    refuses(&board, Step::Rotate, machine_of(2, 99), &[], 8);
    stays(&board, machine_of(2, 11));
    board.settings.interval = 2;
    stays(&board, machine_of(2, 99));
    board.settings.interval = 1;
    board.settings.most = 0;
    stays(&board, machine_of(2, 99));
    let mut board = split_board(4);
    stays(&board, machine_of(1, 99));
    board.settings.epoch = 0;
    board.reshapes.clear();
    stays(&board, machine_of(1, 99));
}
