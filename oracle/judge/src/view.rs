//! Document 01's view of what the original did: an answer for a panic, counts
//! that the original doesn't return, and a batch rolled back to the shards
//! that finished.

use board::{Board, Kind, Place, family, within_limits};
use rand::Fault;

use crate::run::{Panic, Ran, Turn, run};

#[derive(Clone, Debug, PartialEq, Eq)]
pub struct View {
    pub answer: u64,
    pub handled: u64,
    pub used: u64,
    pub board: Board,
}

/// The view of one call. The refusals that document 01 adds (1, 2, 3, 6, 7,
/// 8, 12, and 4 of a leave) are not seen here: the original has none of them.
///
/// # Panics
///
/// Where a batch that finished is not its shards one by one.
#[must_use]
pub fn view(board: &Board, turn: Turn, draws: &[u64]) -> View {
    let view = by_shard(board, turn, draws);
    if view.answer == 0 && shards(board, turn) != [0] {
        let whole = run(board, turn, draws);
        assert!(whole.panic.is_none() && whole.fault.is_none());
        assert_eq!(whole.used, view.used, "a batch is its shards one by one");
        assert_eq!(whole.board, view.board, "a batch is its shards one by one");
    }
    view
}

/// The shards a batch goes through; a step on one shard is a batch of one.
fn shards(board: &Board, turn: Turn) -> Vec<u64> {
    let epoch = board.settings.epoch;
    let wanted = |kind: Kind, due: bool| -> Vec<u64> {
        let rows = board.reshapes.iter().filter(|(_, r)| {
            r.kind == kind
                && r.scheduled
                    .map_or(!due, |terminal| due && terminal <= epoch)
        });
        rows.map(|(target, _)| *target).collect()
    };
    match turn {
        Turn::ScheduleSplits => wanted(Kind::Split, false),
        Turn::ScheduleMerges => wanted(Kind::Merge, false),
        Turn::CutSplits => wanted(Kind::Split, true),
        Turn::CutMerges => wanted(Kind::Merge, true),
        _ => vec![0],
    }
}

/// The step shard by shard, up to the first that doesn't finish or would
/// pass a limit, so that a batch that stopped is rolled back. No
/// ported function looks at another shard's reshape, so the others are
/// withheld from each turn and put back after it.
fn by_shard(board: &Board, turn: Turn, draws: &[u64]) -> View {
    let mut view = View {
        answer: 0,
        handled: 0,
        used: 0,
        board: board.clone(),
    };
    let targets = shards(board, turn);
    for target in &targets {
        let mut alone = view.board.clone();
        let others = targets.iter().filter(|other| *other != target);
        let withheld: Vec<_> = others
            .filter_map(|other| alone.reshapes.remove_entry(other))
            .collect();
        let mut ran = run(&alone, turn, &draws[view.used as usize..]);
        view.handled_by(answer(&alone, &ran), handled(&alone, turn, &ran), ran.used);
        if view.answer != 0 {
            break;
        }
        ran.board.reshapes.extend(withheld);
        view.board = ran.board;
    }
    view
}

impl View {
    fn handled_by(&mut self, answer: u64, handled: u64, used: u64) {
        self.answer = answer;
        if answer == 0 {
            self.handled += handled;
            self.used += used;
        }
    }
}

fn answer(before: &Board, ran: &Ran) -> u64 {
    match (&ran.fault, &ran.panic) {
        (Some(Fault::Missing), _) => 9,
        (Some(Fault::TooLarge), _) => 10,
        (None, Some(panic)) => panic_answer(before, panic),
        (None, None) if within_limits(&ran.board) => 0,
        (None, None) => 11,
    }
}

/// The answer that document 01 gives for each of the original's panics.
///
/// # Panics
///
/// Where the original stops in another place than the ones listed in
/// docs/DIFFERENCES.md.
fn panic_answer(before: &Board, panic: &Panic) -> u64 {
    let keepers = "keepers come from committee state";
    let members = "members come from committee/cohort state";
    let boundaries = [
        "no entry found for key",
        "a shard asserts its split in a crossing",
        "a child asserts its half of a merge",
    ];
    let says = |words: &str| panic.message.starts_with(words);
    if boundaries.into_iter().any(says) {
        5
    } else if says(members) {
        4
    } else if says(keepers) {
        // Document 01 asks for the boundaries first, the original for keepers.
        if due_merge_lacks_boundary(before) {
            5
        } else {
            4
        }
    } else {
        unreachable!("the original stopped in an unlisted place: {panic:?}")
    }
}

/// Asked of a board with one due merge alone.
fn due_merge_lacks_boundary(before: &Board) -> bool {
    let due = shards(before, Turn::CutMerges);
    let children = due
        .first()
        .map(|target| [family(*target)[1], family(*target)[2]]);
    let mut children = children.into_iter().flatten();
    children.any(|child| !before.boundaries.contains_key(&child))
}

/// The count of document 01, read off the boards before and after.
fn handled(before: &Board, turn: Turn, ran: &Ran) -> u64 {
    let after = &ran.board;
    let scheduled = |board: &Board, kind: Kind| {
        let rows = board.reshapes.values();
        rows.filter(|r| r.kind == kind && r.scheduled.is_some())
            .count()
    };
    let pooled = |board: &Board| {
        let places = board.machines.values();
        places.filter(|place| **place == Place::Pooled).count()
    };
    let grown = |from: usize, to: usize| to.saturating_sub(from) as u64;
    match turn {
        Turn::DrawKeepers(_) | Turn::DrawCohort(_) | Turn::TimeOut => ran.returned.unwrap_or(0),
        Turn::Lapse(_) => grown(pooled(before), pooled(after)),
        Turn::ScheduleSplits => grown(
            scheduled(before, Kind::Split),
            scheduled(after, Kind::Split),
        ),
        Turn::ScheduleMerges => grown(
            scheduled(before, Kind::Merge),
            scheduled(after, Kind::Merge),
        ),
        Turn::CutSplits | Turn::CutMerges => grown(after.reshapes.len(), before.reshapes.len()),
        Turn::Leave(_) => ran.used,
        Turn::Rotate(..) => grown(before.rotations.len(), after.rotations.len()),
        Turn::Resolve => grown(after.rotations.len(), before.rotations.len()),
    }
}
