//! The boards that are timed: for each shape and step one on which the step
//! has all its work to do.

use std::fmt::{self, Display, Formatter};

use board::{Board, Boundary, COMMITTEES, Id, Kind, MEMBERS, Place, Settings};
use calls::{Call, Rng};
use plain::{Args, Step};

/// How large a board is.
#[derive(Clone, Copy, Debug)]
pub struct Shape {
    pub machines: u64,
    pub size: u64,
    pub committees: u64,
}

pub const SHAPES: [Shape; 4] = [
    Shape {
        machines: 24,
        size: 4,
        committees: 4,
    },
    Shape {
        machines: 128,
        size: 12,
        committees: 8,
    },
    Shape {
        machines: 256,
        size: 10,
        committees: 24,
    },
    Shape {
        machines: 256,
        size: 32,
        committees: 6,
    },
];

impl Display for Shape {
    fn fmt(&self, f: &mut Formatter<'_>) -> fmt::Result {
        let Self {
            machines,
            size,
            committees,
        } = self;
        write!(f, "{machines} machines, S={size}, {committees} committees")
    }
}

/// The same S on ever more machines, half of them seated, or as many as fit.
#[must_use]
pub fn growing() -> Vec<Shape> {
    let shape = |machines: u64| Shape {
        machines,
        size: 4,
        committees: (machines / 8).min(COMMITTEES as u64),
    };
    [16, 32, 64, 128, 256].map(shape).to_vec()
}

/// A call and the board before it.
pub struct Situation {
    pub board: Board,
    pub call: Call,
}

const ZEROS: [u64; 1024] = [0; 1024];

/// Committees of S on the leaves of a tree, the other machines pooled.
#[must_use]
pub fn base(shape: Shape) -> Board {
    let mut board = Board::empty(Settings {
        epoch: 20,
        size: shape.size,
        drain: 2,
        wait: 3,
        interval: 1,
        most: 6,
    });
    let mut ids: Vec<Id> = (1..=shape.machines).map(|n| 1000 + 7 * n).collect();
    Rng::new(shape.machines).shuffle(&mut ids);
    for shard in leaves(shape.committees) {
        let members = ids.split_off(ids.len() - shape.size as usize);
        let place = Place::Seated {
            shard,
            ready: true,
            stamp: 12,
        };
        board.machines.extend(members.iter().map(|id| (*id, place)));
        board.committees.insert(shard, members);
        board.boundaries.insert(shard, boundary(shard));
    }
    board
        .machines
        .extend(ids.iter().map(|id| (*id, Place::Pooled)));
    board
}

fn boundary(shard: u64) -> Boundary {
    Boundary {
        height: 100 + shard,
        formed: 3,
        last_live: 19,
        terminal: None,
        admitted: None,
    }
}

/// The leaves of a tree that was split at its smallest leaf again and again.
fn leaves(count: u64) -> Vec<u64> {
    let mut shards = vec![1];
    while (shards.len() as u64) < count {
        let parent = shards.remove(0);
        shards.extend([2 * parent, 2 * parent + 1]);
    }
    shards.sort_unstable();
    shards
}

fn at(shard: u64) -> Args {
    Args {
        shard,
        ..Args::default()
    }
}

/// The board after a call that is done.
fn after(board: &Board, step: Step, args: Args) -> Board {
    let done = plain::run(board, step, args, &ZEROS, None);
    assert_eq!(done.outcome.answer, 0, "{step:?}");
    done.board
}

/// A split at the last shard, with its cohort all ready and quiet.
fn staffed_split(board: &Board) -> (u64, Board) {
    let target = split_target(board);
    let board = after(board, Step::AdmitSplit, at(target));
    let mut board = after(&board, Step::DrawCohort, at(target));
    make_ready(&mut board);
    (target, board)
}

/// A merge of the first two shards, with its keepers all ready and quiet.
fn staffed_merge(board: &Board) -> Board {
    let target = merge_target(board);
    let mut board = after(board, Step::AdmitMerge, at(target));
    make_ready(&mut board);
    board
}

fn split_target(board: &Board) -> u64 {
    *board.committees.keys().last().expect("a committee")
}

fn merge_target(board: &Board) -> u64 {
    let shards = board.committees.keys();
    let mut left = shards.filter(|s| **s % 2 == 0 && board.committees.contains_key(&(**s + 1)));
    left.next().expect("a pair") / 2
}

fn make_ready(board: &mut Board) {
    for reshape in board.reshapes.values_mut() {
        reshape.quiet = [true, reshape.kind == Kind::Merge];
        reshape
            .seats
            .values_mut()
            .for_each(|seat| seat.ready = true);
    }
}

/// Two schedule calls and a tick: the cut has come.
fn due(board: &Board, schedule: Step) -> Board {
    let board = after(board, schedule, Args::default());
    let board = after(&board, schedule, Args::default());
    after(&board, Step::Tick, Args::default())
}

fn waiting(mut board: Board) -> Board {
    for place in board.machines.values_mut() {
        if let Place::Seated { ready, .. } = place {
            *ready = false;
        }
    }
    board
}

/// A rotation with a ready entrant on each of the first four shards.
fn rotating(board: &Board) -> Board {
    let shards: Vec<u64> = board.committees.keys().copied().take(4).collect();
    let mut board = board.clone();
    for shard in shards {
        let machine = board.committees[&shard][0];
        board = after(
            &board,
            Step::Rotate,
            Args {
                machine,
                ..at(shard)
            },
        );
    }
    for place in board.machines.values_mut() {
        if let Place::Seated { ready, .. } = place {
            *ready = true;
        }
    }
    board
}

/// A cut of a split needs room for one committee more.
fn with_room(mut board: Board) -> Board {
    if board.committees.len() == COMMITTEES {
        let shard = *board.committees.keys().nth(3).expect("a committee");
        for id in board.committees.remove(&shard).unwrap_or_default() {
            board.machines.insert(id, Place::Pooled);
        }
    }
    board
}

/// A board for the step, with the call on it.
#[must_use]
pub fn situation(shape: Shape, step: Step) -> Situation {
    let board = base(shape);
    let (board, args) = match step {
        Step::Tick => (board, Args::default()),
        Step::TimeOut => (waiting(board), Args::default()),
        Step::Leave | Step::Rotate => on_first(board),
        Step::Resolve => (rotating(&board), Args::default()),
        Step::AdmitMerge => with_target(board, merge_target),
        Step::AdmitSplit => with_target(board, split_target),
        Step::MarkReady | Step::MarkQuiet | Step::Lapse => split_call(&board),
        Step::DrawCohort => {
            let (target, board) = staffed_split(&board);
            (after(&board, Step::Lapse, at(target)), at(target))
        }
        Step::ScheduleSplits => {
            let (_, board) = staffed_split(&board);
            (after(&board, step, Args::default()), Args::default())
        }
        Step::ScheduleMerges => {
            let board = staffed_merge(&board);
            (after(&board, step, Args::default()), Args::default())
        }
        Step::CutSplits => {
            let (_, board) = staffed_split(&with_room(board));
            (due(&board, Step::ScheduleSplits), Args::default())
        }
        Step::CutMerges => {
            let board = staffed_merge(&board);
            (due(&board, Step::ScheduleMerges), Args::default())
        }
        Step::Read => panic!("a read is no step"),
    };
    with_draws(board, step, args.of(step))
}

fn with_target(board: Board, target: fn(&Board) -> u64) -> (Board, Args) {
    let target = target(&board);
    (board, at(target))
}

/// A member of the first shard.
fn on_first(board: Board) -> (Board, Args) {
    let (shard, ids) = board.committees.iter().next().expect("a committee");
    let args = Args {
        machine: ids[1],
        ..at(*shard)
    };
    (board, args)
}

fn split_call(board: &Board) -> (Board, Args) {
    let (target, mut board) = staffed_split(board);
    let split = board.reshapes.get_mut(&target).expect("the split");
    split.quiet = [false; 2];
    let (machine, seat) = split.seats.iter_mut().next().expect("a seat");
    seat.ready = false;
    let machine = *machine;
    let args = Args {
        machine,
        ..at(target)
    };
    (board, args)
}

/// Draws anywhere in their ranges, exactly as many as the call needs.
fn with_draws(board: Board, step: Step, args: Args) -> Situation {
    let done = plain::run(&board, step, args, &ZEROS, None);
    assert_eq!(done.outcome.answer, 0, "{step:?}");
    assert!(done.board != board, "{step:?} does nothing");
    let mut rng = Rng::new(7);
    let draws = done
        .asked
        .iter()
        .map(|most| rng.between(0, *most))
        .collect();
    let call = Call { step, args, draws };
    Situation { board, call }
}

/// 24 committees of 96 distinct ids: the most that the check has to do.
#[must_use]
pub fn worst() -> Board {
    let mut board = base(SHAPES[2]);
    for (at, ids) in board.committees.values_mut().enumerate() {
        let first = 100_000 + at as u64;
        *ids = (0..MEMBERS as u64).map(|n| first + 97 * n).collect();
    }
    board
}
