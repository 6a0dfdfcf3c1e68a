//! The original's debug assertions (D5 and D6 of docs/DIFFERENCES.md). Run
//! once as nodes run, without them, and once with them.

use board::{Board, Kind, passes};
use calls::cases::{boundary, merge_board, split_board, target};
use judge::{Turn, run};
use plain::{Args, Step};

/// The original stops with these words exactly where assertions are on.
fn asserts(board: &Board, turn: Turn, draws: &[u64], words: &str) {
    let ran = run(board, turn, draws);
    let said = ran.panic.map(|panic| panic.message);
    let expected = cfg!(debug_assertions).then(|| words.to_owned());
    assert_eq!(said, expected);
    assert_eq!(ran.fault, None);
}

fn end_at(board: &mut Board, shard: u64) {
    let mut row = boundary(1);
    row.terminal = Some(3);
    board.boundaries.insert(shard, row);
}

#[test]
fn d5_a_short_pool() {
    let mut board = split_board(4);
    board.machines.remove(&24);
    let words = "caller enforces the pool gate";
    asserts(&board, Turn::DrawCohort(1), &[0, 0], words);
}

#[test]
fn d6_a_terminal_record_on_a_splits_child() {
    for child in [2, 3] {
        let mut board = split_board(4);
        end_at(&mut board, child);
        let words = "a split was admitted onto a child id whose terminal record stands";
        asserts(&board, Turn::ScheduleSplits, &[0; 3], words);
        let done = plain::run(&board, Step::ScheduleSplits, Args::default(), &[0; 3], None);
        assert_eq!(done.outcome.answer, 0);
    }
}

#[test]
fn d6_a_terminal_record_on_a_merges_parent() {
    let mut board = merge_board(4, 3);
    end_at(&mut board, 1);
    let words = "a merge was admitted onto a parent id whose terminal record stands";
    asserts(&board, Turn::ScheduleMerges, &[], words);
    let done = plain::run(&board, Step::ScheduleMerges, Args::default(), &[], None);
    assert_eq!(done.outcome.answer, 0);
}

fn step(board: &mut Board, step: Step, args: Args, draws: &[u64]) {
    let done = plain::run(board, step, args, draws, None);
    assert_eq!(done.outcome.answer, 0, "{step:?}");
    *board = done.board;
}

/// Seats ready and all quiet, scheduled in two calls and cut an epoch later.
fn reshaped(board: &mut Board, schedule: Step, cut: Step, draws: &[u64]) {
    let none = Args::default();
    board.reshapes.entry(1).and_modify(|reshape| {
        reshape.quiet = [true, reshape.kind == Kind::Merge];
        reshape
            .seats
            .values_mut()
            .for_each(|seat| seat.ready = true);
    });
    step(board, schedule, none, draws);
    step(board, schedule, none, draws);
    step(board, Step::Tick, none, &[]);
    step(board, cut, none, &[]);
    assert!(passes(board) && board.reshapes.is_empty());
}

/// Split, merged and split again: the board passes the seat check all along.
#[test]
fn d6_a_second_split_after_a_merge() {
    let mut board = split_board(4);
    step(&mut board, Step::DrawCohort, target(1), &[0; 3]);
    reshaped(&mut board, Step::ScheduleSplits, Step::CutSplits, &[0; 3]);
    step(&mut board, Step::AdmitMerge, target(1), &[0; 6]);
    reshaped(&mut board, Step::ScheduleMerges, Step::CutMerges, &[]);
    step(&mut board, Step::AdmitSplit, target(1), &[]);
    step(&mut board, Step::DrawCohort, target(1), &[0; 3]);
    assert!(passes(&board));
    let words = "a split was admitted onto a child id whose terminal record stands";
    asserts(&board, Turn::ScheduleSplits, &[0; 3], words);
}

/// Without such a record nothing is asserted, in either build.
#[test]
fn nothing_is_asserted_otherwise() {
    let ran = run(&split_board(4), Turn::ScheduleSplits, &[0; 3]);
    assert_eq!(ran.panic, None);
    let ran = run(&merge_board(4, 3), Turn::ScheduleMerges, &[]);
    assert_eq!(ran.panic, None);
}
