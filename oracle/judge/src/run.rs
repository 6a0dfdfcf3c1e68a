//! One call to the original, its panics caught.

use std::cell::{Cell, RefCell};
use std::panic::{AssertUnwindSafe, PanicHookInfo, catch_unwind, set_hook, take_hook};
use std::sync::Once;

use board::{Board, Kind, Reshape};
use hyperscale_types::{BeaconState, PendingReshape, ShardId, ValidatorId};
use original::state as rust;
use rand::Fault;

use crate::convert::{SEED, from_state, keeper_seats, to_reshape, to_state};

/// The ported steps, with the arguments each of them takes.
#[derive(Clone, Copy, Debug, PartialEq, Eq)]
pub enum Turn {
    /// The keepers' draw alone, and the record that document 01 stores.
    DrawKeepers(u64),
    DrawCohort(u64),
    Lapse(u64),
    ScheduleSplits,
    ScheduleMerges,
    CutSplits,
    CutMerges,
    Leave(u64),
    /// One shard's turn of the shuffle step, its victim given.
    Rotate(u64, u64),
    Resolve,
    TimeOut,
}

/// Where and with which words the original stopped.
#[derive(Clone, Debug, PartialEq, Eq)]
pub struct Panic {
    pub file: String,
    pub line: u32,
    pub message: String,
}

/// What the original did: its own board, even where it stopped halfway.
#[derive(Clone, Debug)]
pub struct Ran {
    pub board: Board,
    pub panic: Option<Panic>,
    /// The generator's report, where it stopped for want of a draw.
    pub fault: Option<Fault>,
    pub used: u64,
    /// The count it returned, where it returns one.
    pub returned: Option<u64>,
}

thread_local! {
    static INSIDE: Cell<bool> = const { Cell::new(false) };
    static LAST: RefCell<Option<Panic>> = const { RefCell::new(None) };
}

/// Panics of the original are noted in silence, all others shown as usual.
fn note_panics() {
    static HOOK: Once = Once::new();
    HOOK.call_once(|| {
        let usual = take_hook();
        set_hook(Box::new(move |info| {
            if INSIDE.get() {
                LAST.set(Some(note(info)));
            } else {
                usual(info);
            }
        }));
    });
}

fn note(info: &PanicHookInfo) -> Panic {
    let place = info.location();
    Panic {
        file: place.map_or_else(String::new, |at| file_name(at.file())),
        line: place.map_or(0, std::panic::Location::line),
        message: info.payload_as_str().unwrap_or_default().to_owned(),
    }
}

fn file_name(path: &str) -> String {
    path.rsplit(['/', '\\']).next().unwrap_or(path).to_owned()
}

/// Run one step of the original on a board with the draws lent.
#[must_use]
pub fn run(board: &Board, turn: Turn, draws: &[u64]) -> Ran {
    note_panics();
    let mut state = to_state(board);
    rand::lend(draws);
    INSIDE.set(true);
    let result = catch_unwind(AssertUnwindSafe(|| act(&mut state, turn)));
    INSIDE.set(false);
    let (fault, panic, returned) = match result {
        Ok(returned) => (None, None, returned),
        Err(payload) => match payload.downcast_ref::<Fault>() {
            Some(fault) => (Some(*fault), None, None),
            None => (None, LAST.take(), None),
        },
    };
    Ran {
        board: from_state(&state),
        panic,
        fault,
        used: rand::used() as u64,
        returned,
    }
}

fn act(state: &mut BeaconState, turn: Turn) -> Option<u64> {
    match turn {
        Turn::DrawKeepers(target) => return Some(draw_keepers(state, target)),
        Turn::DrawCohort(target) => return Some(draw_cohort(state, target)),
        Turn::TimeOut => return Some(rust::auto_ready_timeout(state).len() as u64),
        Turn::Lapse(target) => rust::lapse_split(state, ShardId(target)),
        Turn::ScheduleSplits => rust::schedule_ready_splits(state),
        Turn::ScheduleMerges => rust::schedule_ready_merges(state),
        Turn::CutSplits => rust::apply_scheduled_splits(state),
        Turn::CutMerges => rust::apply_scheduled_merges(state),
        Turn::Leave(id) => rust::deactivate_to_insufficient_stake(state, ValidatorId(id)),
        Turn::Rotate(shard, victim) => {
            state.given_victim = Some((ShardId(shard), ValidatorId(victim)));
            rust::run_shuffle_step(state);
        }
        Turn::Resolve => rust::resolve_pending_rotations(state),
    }
    None
}

/// Document 01 stores the keepers that the original returns.
fn draw_keepers(state: &mut BeaconState, target: u64) -> u64 {
    let keepers = rust::draw_merge_keepers(state, ShardId(target));
    let seats = keeper_seats(&keepers);
    let drawn = seats.len() as u64;
    let merge = Reshape::admitted(Kind::Merge, state.current_epoch.0, seats);
    let record = to_reshape(target, &merge);
    state.pending_reshapes.insert(ShardId(target), record);
    drawn
}

/// Document 01 stores the cohort that the original returns.
fn draw_cohort(state: &mut BeaconState, target: u64) -> u64 {
    let drawn = rust::draw_split_cohort(state, ShardId(target), &SEED);
    let count = drawn.len() as u64;
    if let Some(PendingReshape::Split { cohort, .. }) =
        state.pending_reshapes.get_mut(&ShardId(target))
    {
        *cohort = drawn;
    }
    count
}
