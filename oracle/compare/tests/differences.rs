//! Each entry of docs/DIFFERENCES.md, reproduced by its input.

use board::{Board, COMMITTEES, Kind, Place, Reshape, Rotation, Seat};
use calls::cases::{
    boundary, children_board, empty_board, merge_board, put_committee, put_pool, seated,
    split_board, target,
};
use judge::{Ran, Turn, run, view};
use plain::{Args, Outcome, Step};

fn plain(board: &Board, step: Step, args: Args, draws: &[u64]) -> Outcome {
    assert!(board.well_formed());
    let done = plain::run(board, step, args, draws, None);
    if done.outcome.answer != 0 && done.outcome.handled == 0 {
        assert_eq!(done.board, *board, "a refusal changes nothing");
    }
    done.outcome
}

fn refused(answer: u64) -> Outcome {
    Outcome {
        answer,
        handled: 0,
        used: 0,
    }
}

fn machine(id: u64) -> Args {
    Args {
        machine: id,
        ..Args::default()
    }
}

fn stopped_at(ran: &Ran, file: &str, line: u32) {
    let panic = ran.panic.as_ref().expect("the original stops");
    assert_eq!((panic.file.as_str(), panic.line), (file, line), "{panic:?}");
}

fn finished(ran: &Ran) -> &Board {
    assert!(ran.panic.is_none() && ran.fault.is_none(), "{ran:?}");
    &ran.board
}

fn schedule_at(board: &mut Board, at: u64, terminal: u64, halves: [Vec<u64>; 2]) {
    let reshape = board.reshapes.entry(at);
    reshape.and_modify(|reshape| {
        reshape.scheduled = Some(terminal);
        reshape.halves = halves;
    });
}

fn due_split(size: u64) -> Board {
    let mut board = split_board(size);
    schedule_at(&mut board, 1, 5, [vec![11, 12], vec![13, 14]]);
    board
}

fn due_merge() -> Board {
    let mut board = merge_board(4, 3);
    schedule_at(&mut board, 1, 5, [Vec::new(), Vec::new()]);
    board
}

/// D1: a due merge without a child's boundary and without a keeper's record.
#[test]
fn d1_a_merge_cut_asks_for_boundaries_first() {
    let mut board = due_merge();
    board.boundaries.remove(&3);
    board.machines.remove(&11);
    let outcome = plain(&board, Step::CutMerges, Args::default(), &[]);
    assert_eq!(outcome, refused(5));
    stopped_at(&run(&board, Turn::CutMerges, &[]), "reshape.rs", 702);
}

/// D2: victims that are waiting, keepers, or missing from the list.
#[test]
fn d2_the_victim_is_the_callers() {
    let mut board = merge_board(4, 0);
    put_pool(&mut board, 200..201);
    board.machines.insert(12, seated(2, false));
    board.committees.insert(2, vec![11, 12, 13]);
    for victim in [11, 12, 14] {
        let args = Args {
            machine: victim,
            ..target(2)
        };
        let outcome = plain(&board, Step::Rotate, args, &[0]);
        assert_eq!((outcome.answer, outcome.handled), (0, 1));
        let ran = run(&board, Turn::Rotate(2, victim), &[0]);
        assert!(finished(&ran).rotations.contains_key(&(2, victim)));
    }
}

/// D3: lapse where no split stands.
#[test]
fn d3_a_lapse_without_a_split_is_refused() {
    for board in [children_board(4), merge_board(4, 0)] {
        let outcome = plain(&board, Step::Lapse, target(1), &[]);
        assert_eq!(outcome, refused(6));
        assert_eq!(*finished(&run(&board, Turn::Lapse(1), &[])), board);
    }
}

/// D4: a machine without a record leaves.
#[test]
fn d4_leaving_without_a_record_is_refused() {
    let board = children_board(4);
    let outcome = plain(&board, Step::Leave, machine(99), &[]);
    assert_eq!(outcome, refused(4));
    assert_eq!(*finished(&run(&board, Turn::Leave(99), &[])), board);
}

/// D5: three pooled where S is four. With debug assertions: `assertions.rs`.
#[cfg(not(debug_assertions))]
#[test]
fn d5_a_short_pool_is_refused() {
    let mut board = split_board(4);
    board.machines.remove(&24);
    let outcome = plain(&board, Step::DrawCohort, target(1), &[0, 0]);
    assert_eq!(outcome, refused(12));
    let ran = run(&board, Turn::DrawCohort(1), &[0, 0]);
    assert_eq!(finished(&ran).reshapes[&1].seats.len(), 3);
}

/// D7: limits that the original's maps don't have.
#[test]
fn d7_an_id_twice_in_a_committee() {
    let mut board = split_board(4);
    board.committees.insert(1, vec![11, 12, 13, 14, 21]);
    past(&board, Step::DrawCohort, target(1), &[0, 0, 0]);
    past(&board, Step::Leave, machine(11), &[0]);
    board.reshapes.clear();
    let args = Args {
        machine: 12,
        ..target(1)
    };
    past(&board, Step::Rotate, args, &[0]);
}

/// Refused with 11; the original finishes, past a limit.
fn past(board: &Board, step: Step, args: Args, draws: &[u64]) {
    assert_eq!(plain(board, step, args, draws), refused(11));
    let turn = compare::ported(step, args).expect("a ported step");
    let ran = run(board, turn, draws);
    assert!(!finished(&ran).well_formed());
    assert_eq!(view(board, turn, draws).answer, 11);
}

fn fill_committees(board: &mut Board) {
    let far = (1000..).filter(|shard| !board.committees.contains_key(shard));
    let missing = COMMITTEES - board.committees.len();
    let far: Vec<u64> = far.take(missing).collect();
    board
        .committees
        .extend(far.into_iter().map(|shard| (shard, Vec::new())));
}

#[test]
fn d7_a_25th_committee() {
    let mut board = due_split(4);
    fill_committees(&mut board);
    past(&board, Step::CutSplits, Args::default(), &[]);
    let mut board = split_board(4);
    board.committees.clear();
    fill_committees(&mut board);
    past(&board, Step::DrawCohort, target(1), &[0, 0, 0]);
    board.reshapes.clear();
    past(&board, Step::Leave, machine(11), &[0]);
    let mut board = due_merge();
    board.committees.clear();
    fill_committees(&mut board);
    past(&board, Step::CutMerges, Args::default(), &[]);
}

#[test]
fn d7_a_49th_boundary() {
    for (mut board, step) in [
        (due_split(4), Step::CutSplits),
        (due_merge(), Step::CutMerges),
    ] {
        let missing = 48 - board.boundaries.len() as u64;
        let far = (1000..1000 + missing).map(|shard| (shard, boundary(1)));
        board.boundaries.extend(far);
        past(&board, step, Args::default(), &[]);
    }
}

#[test]
fn d7_a_97th_member_and_a_49th_rotation() {
    let mut board = empty_board(4);
    put_committee(&mut board, 1, 11..107);
    put_pool(&mut board, 200..201);
    let args = Args {
        machine: 11,
        ..target(1)
    };
    past(&board, Step::Rotate, args, &[0]);
    let mut board = empty_board(4);
    put_committee(&mut board, 1, 11..15);
    put_pool(&mut board, 200..201);
    for victim in 0..48 {
        let row = Rotation {
            entrant: 1,
            opened: 5,
        };
        board.rotations.insert((9, victim), row);
    }
    past(&board, Step::Rotate, args, &[0]);
}

#[test]
fn d7_a_ninth_reshape() {
    let mut board = children_board(4);
    for at in 100..108 {
        let split = Reshape::admitted(Kind::Split, 4, std::collections::BTreeMap::new());
        board.reshapes.insert(at, split);
    }
    past(&board, Step::AdmitMerge, target(1), &[0; 6]);
    let outcome = plain(&board, Step::AdmitSplit, target(2), &[]);
    assert_eq!(outcome, refused(11));
}

/// D8: the original's generator has no end and stays in its range.
#[test]
fn d8_a_missing_or_too_large_draw() {
    let board = split_board(4);
    for (draws, answer) in [(&[0, 0][..], 9), (&[0, 3], 10), (&[4], 10), (&[], 9)] {
        let outcome = plain(&board, Step::DrawCohort, target(1), draws);
        assert_eq!(outcome, refused(answer));
        let ran = run(&board, Turn::DrawCohort(1), draws);
        assert!(ran.fault.is_some() && ran.panic.is_none());
    }
}

/// A split ready to schedule, without the boundary it would mark.
fn unbounded_split() -> Board {
    let mut board = split_board(4);
    board.boundaries.remove(&1);
    let split = board.reshapes.entry(1);
    split.and_modify(|split| {
        split.quiet[0] = true;
        split.drain_by = Some(6);
        for (id, child) in [(22, 2), (24, 3)] {
            split.seats.insert(id, Seat { child, ready: true });
        }
    });
    board
}

/// D9: where the original stops it leaves a board half changed.
#[test]
fn d9_a_refused_shard_is_undone() {
    let board = unbounded_split();
    let outcome = plain(&board, Step::ScheduleSplits, Args::default(), &[0, 0, 0]);
    assert_eq!(outcome, refused(5));
    let ran = run(&board, Turn::ScheduleSplits, &[0, 0, 0]);
    stopped_at(&ran, "reshape.rs", 418);
    assert_eq!(ran.board.reshapes[&1].scheduled, Some(6));
    let mut board = due_split(4);
    board.machines.remove(&14);
    let outcome = plain(&board, Step::CutSplits, Args::default(), &[]);
    assert_eq!(outcome, refused(4));
    let ran = run(&board, Turn::CutSplits, &[]);
    stopped_at(&ran, "reshape.rs", 512);
    assert!(!ran.board.committees.contains_key(&1) && ran.board.committees.contains_key(&2));
}

/// D9: the shards before the refused one stand and count.
#[test]
fn d9_earlier_shards_stand() {
    let mut board = due_split(4);
    put_committee(&mut board, 12, 31..33);
    board.boundaries.remove(&12);
    let due = Reshape {
        scheduled: Some(5),
        ..Reshape::admitted(Kind::Split, 4, std::collections::BTreeMap::new())
    };
    board.reshapes.insert(12, due);
    let done = plain::run(&board, Step::CutSplits, Args::default(), &[], None);
    let partly = Outcome {
        answer: 5,
        handled: 1,
        used: 0,
    };
    assert_eq!(done.outcome, partly);
    assert!(done.board.committees.contains_key(&2) && done.board.reshapes.contains_key(&12));
    let ran = run(&board, Turn::CutSplits, &[]);
    assert!(ran.panic.is_some() && !ran.board.reshapes.contains_key(&12));
    assert_eq!(view(&board, Turn::CutSplits, &[]).board, done.board);
}

/// D10: the original draws a cohort for any target, staffed or none.
#[test]
fn d10_a_cohort_draw_asks_for_its_need() {
    let board = due_split(4);
    let outcome = plain(&board, Step::DrawCohort, target(1), &[0, 0, 0]);
    assert_eq!(outcome, refused(6));
    let ran = run(&board, Turn::DrawCohort(1), &[0, 0, 0]);
    assert_eq!(finished(&ran).reshapes[&1].seats.len(), 4);
}

/// D11: the victim check, which the original's own choice makes needless.
#[test]
fn d11_a_victim_who_is_not_there_is_refused() {
    let mut board = children_board(4);
    put_pool(&mut board, 200..201);
    for victim in [101, 99, 200] {
        let args = Args {
            machine: victim,
            ..target(2)
        };
        assert_eq!(plain(&board, Step::Rotate, args, &[0]), refused(8));
        let ran = run(&board, Turn::Rotate(2, victim), &[0]);
        assert!(finished(&ran).rotations.contains_key(&(2, victim)));
    }
}

/// Every other place where the original stops, with its answer.
#[test]
fn the_places_where_the_original_stops() {
    let mut board = due_split(4);
    board.boundaries.remove(&1);
    let outcome = plain(&board, Step::CutSplits, Args::default(), &[]);
    assert_eq!(outcome, refused(5));
    stopped_at(&run(&board, Turn::CutSplits, &[]), "reshape.rs", 480);

    let mut board = merge_board(4, 3);
    board.boundaries.remove(&3);
    let merge = board.reshapes.entry(1);
    merge.and_modify(|merge| {
        merge.quiet = [true; 2];
        merge.drain_by = Some(6);
    });
    let outcome = plain(&board, Step::ScheduleMerges, Args::default(), &[]);
    assert_eq!(outcome, refused(5));
    stopped_at(&run(&board, Turn::ScheduleMerges, &[]), "reshape.rs", 655);

    let mut board = due_merge();
    board.machines.remove(&101);
    let outcome = plain(&board, Step::CutMerges, Args::default(), &[]);
    assert_eq!(outcome, refused(4));
    stopped_at(&run(&board, Turn::CutMerges, &[]), "reshape.rs", 702);

    let mut board = due_merge();
    board.boundaries.remove(&2);
    let outcome = plain(&board, Step::CutMerges, Args::default(), &[]);
    assert_eq!(outcome, refused(5));
    stopped_at(&run(&board, Turn::CutMerges, &[]), "reshape.rs", 740);
}

/// The boards of this file are the ones they are said to be.
#[test]
fn the_inputs_finish_where_nothing_is_missing() {
    for (board, step) in [
        (due_split(4), Step::CutSplits),
        (due_merge(), Step::CutMerges),
    ] {
        let outcome = plain(&board, step, Args::default(), &[]);
        assert_eq!((outcome.answer, outcome.handled), (0, 1));
        let pooled = board.machines.values().any(|place| *place == Place::Pooled);
        assert_eq!(pooled, step == Step::CutSplits);
    }
}
