//! Series of calls, each with the plain reading's outcome.

use board::{Board, read, write};
use plain::{Args, Outcome, Step};

use crate::Rng;
use crate::choose::choose;
use crate::damage::{broken, misnumbered};
use crate::disturb::disturbed;
use crate::limits::at_limits;
use crate::many::{choose_batch, many_reshapes};
use crate::passing::{Bounds, passing_board};

#[derive(Clone, Debug, PartialEq, Eq)]
pub struct Call {
    pub step: Step,
    pub args: Args,
    pub draws: Vec<u64>,
}

/// A call, its outcome and the snapshot after it.
#[derive(Clone, Debug, PartialEq, Eq)]
pub struct Made {
    pub call: Call,
    pub outcome: Outcome,
    pub after: Vec<u64>,
}

#[derive(Clone, Debug, PartialEq, Eq)]
pub struct Series {
    pub start: Vec<u64>,
    /// The starting snapshot's length; 8 for each word but where it is cut.
    pub bytes: u64,
    pub made: Vec<Made>,
}

#[derive(Clone, Copy, Debug, PartialEq, Eq)]
pub enum Kind {
    /// A long series from a board that passes the seat check.
    Passing,
    /// Calls on well-formed boards off the check.
    Disturbed,
    /// Calls on boards at a limit.
    Limits,
    /// Batches over several reshapes.
    Many,
    /// Words of a snapshot's structure that are no well-formed board.
    Misnumbered,
    /// Bytes that are no snapshot.
    Broken,
}

/// How large boards and series may be.
#[derive(Clone, Copy, Debug)]
pub struct Sizes {
    pub size: (u64, u64),
    pub shards: u64,
    pub machines: usize,
    pub calls: u64,
}

/// One series of a kind, from the generator's state alone.
#[must_use]
pub fn make_series(rng: &mut Rng, kind: Kind, sizes: Sizes) -> Series {
    let bounds = Bounds {
        size: sizes.size,
        shards: sizes.shards,
        machines: sizes.machines,
    };
    let board = passing_board(rng, bounds);
    if kind == Kind::Passing {
        return driven(rng, &board, sizes.calls, choose);
    }
    if kind == Kind::Many {
        let board = many_reshapes(rng, &board);
        let calls = rng.between(2, 6);
        return driven(rng, &board, calls, choose_batch);
    }
    let board = warmed(rng, board, sizes.calls);
    match kind {
        Kind::Disturbed => {
            let board = disturbed(rng, &board);
            let calls = rng.between(1, 12);
            driven(rng, &board, calls, choose)
        }
        Kind::Limits => limit_series(rng, board, sizes.calls),
        Kind::Misnumbered => match misnumbered(rng, &write(&board)) {
            Some(words) => refused(rng, words),
            None => driven(rng, &board, 1, choose),
        },
        _ => {
            let (words, bytes) = broken(rng, &write(&board));
            unread(words, bytes)
        }
    }
}

/// A series of any kind, on boards small and large.
#[must_use]
pub fn any_series(rng: &mut Rng) -> Series {
    let kind = match rng.below(100) {
        0..35 => Kind::Passing,
        35..55 => Kind::Disturbed,
        55..65 => Kind::Many,
        65..85 => Kind::Limits,
        85..95 => Kind::Misnumbered,
        _ => Kind::Broken,
    };
    let many = kind == Kind::Many;
    let sizes = Sizes {
        size: if rng.chance(60) { (4, 9) } else { (4, 32) },
        shards: if many { 6 } else { rng.between(1, 5) },
        machines: rng.between(if many { 60 } else { 12 }, 256) as usize,
        calls: rng.between(20, 160),
    };
    make_series(rng, kind, sizes)
}

/// How the next step and its arguments are found.
type Choose = fn(&mut Rng, &Board) -> (Step, Args);

/// The board some calls later, so that reshapes are in every phase.
fn warmed(rng: &mut Rng, mut board: Board, calls: u64) -> Board {
    for _ in 0..rng.below(calls + 1) {
        let (call, _) = next_call(rng, &board, choose);
        if call.step != Step::Read {
            board = plain::run(&board, call.step, call.args, &call.draws, None).board;
        }
    }
    board
}

fn limit_series(rng: &mut Rng, mut board: Board, calls: u64) -> Series {
    if rng.chance(50) {
        board = disturbed(rng, &board);
    }
    let board = at_limits(rng, &board);
    let calls = rng.between(1, 10.min(calls));
    driven(rng, &board, calls, choose)
}

fn driven(rng: &mut Rng, board: &Board, calls: u64, choose: Choose) -> Series {
    let start = write(board);
    let mut words = start.clone();
    let mut made = Vec::new();
    for _ in 0..calls {
        let Some(board) = read(&words) else { break };
        let (call, outcome) = next_call(rng, &board, choose);
        let (said, after) = plain::call(&words, call.step, call.args, &call.draws);
        assert_eq!(outcome.unwrap_or(said), said, "a step is a function");
        words.clone_from(&after);
        made.push(Made {
            call,
            outcome: said,
            after,
        });
    }
    let bytes = start.len() as u64 * 8;
    Series { start, bytes, made }
}

/// A call with draws of some fashion; the outcome where it was worked out.
fn next_call(rng: &mut Rng, board: &Board, choose: Choose) -> (Call, Option<Outcome>) {
    let (step, args) = choose(rng, board);
    let args = args.of(step);
    if step == Step::Read {
        let draws = Vec::new();
        return (Call { step, args, draws }, None);
    }
    let draws = draws(rng, board, step, args);
    let outcome = plain::run(board, step, args, &draws, None).outcome;
    (Call { step, args, draws }, Some(outcome))
}

/// Exact draws, or longer, short, too large or none. The largest ones allowed
/// are learnt from a run on zeros, which every need allows.
fn draws(rng: &mut Rng, board: &Board, step: Step, args: Args) -> Vec<u64> {
    const ZEROS: [u64; 1024] = [0; 1024];
    let asked = plain::run(board, step, args, &ZEROS, None).asked;
    let mut draws: Vec<u64> = asked.iter().map(|most| rng.between(0, *most)).collect();
    let at = |rng: &mut Rng| rng.below(asked.len() as u64) as usize;
    match rng.below(100) {
        0..10 => draws.extend((0..rng.between(1, 4)).map(|_| rng.word() % 50)),
        10..16 if !asked.is_empty() => draws.truncate(at(rng)),
        16..22 if !asked.is_empty() => {
            let i = at(rng);
            let beyond = rng.word() >> rng.between(0, 63);
            draws[i] = (asked[i] + 1).saturating_add(beyond % (1 << rng.between(1, 63)));
        }
        22..25 => draws.clear(),
        _ => {}
    }
    draws
}

/// Every step on words that are no well-formed board, and the read of them.
fn refused(rng: &mut Rng, words: Vec<u64>) -> Series {
    let mut made = Vec::new();
    for step in Step::ALL {
        if step != Step::Read && rng.chance(60) {
            continue;
        }
        let args = Args {
            shard: rng.below(3),
            machine: rng.below(20),
            side: rng.below(2),
        };
        let args = args.of(step);
        let draws = (0..rng.below(3)).map(|_| rng.below(3)).collect();
        let call = Call { step, args, draws };
        let (outcome, after) = plain::call(&words, step, args, &call.draws);
        made.push(Made {
            call,
            outcome,
            after,
        });
    }
    let bytes = words.len() as u64 * 8;
    Series {
        start: words,
        bytes,
        made,
    }
}

/// Words as bytes, the least first.
#[must_use]
pub fn bytes_of(words: &[u64]) -> Vec<u8> {
    words.iter().flat_map(|word| word.to_le_bytes()).collect()
}

/// One read of bytes that are no snapshot.
fn unread(words: Vec<u64>, bytes: u64) -> Series {
    let call = Call {
        step: Step::Read,
        args: Args::default(),
        draws: Vec::new(),
    };
    let outcome = plain::read_snapshot(&bytes_of(&words)[..bytes as usize]);
    let made = vec![Made {
        call,
        outcome,
        after: words.clone(),
    }];
    Series {
        start: words,
        bytes,
        made,
    }
}
