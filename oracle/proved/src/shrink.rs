//! A difference brought down to a small call.

use board::{Board, read, write};
use calls::{Made, small};

use crate::case::Case;
use crate::{Checker, Subject, WORDS};

/// The smallest call found that still differs, and how.
pub fn smallest<S: Subject>(checker: &mut Checker<S>, case: &Case) -> (Case, String) {
    let mut least = case.clone();
    let mut why = checker.check(case).err().unwrap_or_default();
    while let Some((smaller, still)) = step_down(checker, &least) {
        least = smaller;
        why = still;
    }
    (least, why)
}

fn step_down<S: Subject>(checker: &mut Checker<S>, case: &Case) -> Option<(Case, String)> {
    candidates(case).into_iter().find_map(|smaller| {
        let why = checker.check(&smaller).err()?;
        Some((smaller, why))
    })
}

/// Calls a little smaller than this one, the largest leaps first.
fn candidates(case: &Case) -> Vec<Case> {
    let mut found = plainer(case);
    if let Some(board) = read(&case.before) {
        let boards = smaller_boards(&board).into_iter();
        let boards = boards.filter(Board::well_formed);
        found.extend(boards.map(|board| with_board(case, &board)));
    }
    found
}

fn with_board(case: &Case, board: &Board) -> Case {
    let before = write(board);
    let bytes = before.len() as u64 * 8;
    let case = case.clone();
    Case {
        before,
        bytes,
        ..case
    }
}

/// No damage, all words, fewer draws.
fn plainer(case: &Case) -> Vec<Case> {
    let mut found = Vec::new();
    if case.words != WORDS {
        let case = case.clone();
        found.push(Case {
            words: WORDS,
            ..case
        });
    }
    for at in 0..case.damage.len() {
        let mut smaller = case.clone();
        smaller.damage.remove(at);
        found.push(smaller);
    }
    for kept in [
        case.call.draws.len() / 2,
        case.call.draws.len().saturating_sub(1),
    ] {
        if kept < case.call.draws.len() {
            let mut smaller = case.clone();
            smaller.call.draws.truncate(kept);
            found.push(smaller);
        }
    }
    found
}

/// Boards with some rows, or one row or id, less.
fn smaller_boards(board: &Board) -> Vec<Board> {
    let mut found = Vec::new();
    let mut offer = |edit: &dyn Fn(&mut Board)| {
        let mut smaller = board.clone();
        edit(&mut smaller);
        if smaller != *board {
            found.push(smaller);
        }
    };
    offer(&|b| b.rotations.clear());
    offer(&|b| b.reshapes.clear());
    for parts in [2, 8] {
        for part in 0..parts {
            offer(&|b| thin(b, parts, part));
        }
    }
    for target in board.reshapes.keys() {
        offer(&|b| b.reshapes.retain(|other, _| other != target));
    }
    for key in board.rotations.keys() {
        offer(&|b| b.rotations.retain(|other, _| other != key));
    }
    for shard in board.committees.keys() {
        offer(&|b| b.committees.retain(|other, _| other != shard));
    }
    for shard in board.boundaries.keys() {
        offer(&|b| b.boundaries.retain(|other, _| other != shard));
    }
    for id in board.machines.keys() {
        offer(&|b| strike(b, *id));
        offer(&|b| b.machines.retain(|other, _| other != id));
    }
    found
}

/// Some of the machines go, with every mention of them.
fn thin(board: &mut Board, parts: usize, part: usize) {
    let ids: Vec<u64> = board.machines.keys().copied().collect();
    let size = ids.len().div_ceil(parts).max(1);
    for id in ids.chunks(size).nth(part).unwrap_or_default() {
        strike(board, *id);
    }
}

fn strike(board: &mut Board, id: u64) {
    board.machines.remove(&id);
    let members = board.committees.values_mut();
    members.for_each(|ids| ids.retain(|other| *other != id));
    for reshape in board.reshapes.values_mut() {
        reshape.seats.remove(&id);
        let halves = reshape.halves.iter_mut();
        halves.for_each(|half| half.retain(|other| *other != id));
    }
}

/// The call as `crates/recorded/proofs/Calls.antt` has them, with the
/// oracle's results, and what else sets it apart.
#[must_use]
pub fn reproduction(case: &Case, why: &str) -> String {
    let mut out = format!("{why}\n");
    if let Ok(expected) = case.expected() {
        let after = expected.snapshot.unwrap_or_else(|| case.before.clone());
        let made = Made {
            call: case.call.clone(),
            outcome: expected.outcome,
            after,
        };
        out.push_str(&small::line(&case.before, &made));
        out.push('\n');
    }
    for (at, word) in &case.damage {
        out.push_str(&format!("with word {at} of the board changed to {word}\n"));
    }
    if case.words != WORDS {
        out.push_str(&format!("with {} words lent as the board\n", case.words));
    }
    if case.bytes != case.before.len() as u64 * 8 {
        out.push_str(&format!("with {} bytes lent as the snapshot\n", case.bytes));
    }
    out
}
