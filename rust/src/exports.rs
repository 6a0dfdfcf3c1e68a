//! The exports one by one, over slices: the only unsafe code. Each answers document 01's number; a step writes the count
//! handled and the draws used to `results` at every call. A board may have any length: a wrong one is answered 1.
//!
//! It is proved of every export that it stays within the slices it is lent, keeps none of them and returns. So a call is
//! sound where each pointer and length are those of a slice or a reference that lives across it.

#![allow(unsafe_code)]

type Results = *mut [u64; 2];

unsafe extern "C" {
    safe fn roster_words() -> u64;
    safe fn roster_snapshot_most() -> u64;
    fn roster_well_formed(board: *const u64, words: usize) -> u64;
    fn roster_seat_check(board: *const u64, words: usize) -> u64;
    fn roster_read(snapshot: *const u8, bytes: usize, board: *mut u64, words: usize) -> u64;
    fn roster_write(
        board: *const u64,
        words: usize,
        snapshot: *mut u8,
        bytes: usize,
        length: *mut u64,
    ) -> u64;
    fn roster_tick(board: *mut u64, words: usize, results: Results) -> u64;
    fn roster_time_out(board: *mut u64, words: usize, results: Results) -> u64;
    fn roster_mark_seat_ready(
        board: *mut u64,
        words: usize,
        target: u64,
        machine: u64,
        results: Results,
    ) -> u64;
    fn roster_mark_quiet(
        board: *mut u64,
        words: usize,
        target: u64,
        side: u64,
        results: Results,
    ) -> u64;
    fn roster_leave(
        board: *mut u64,
        words: usize,
        machine: u64,
        draws: *const u64,
        number: usize,
        results: Results,
    ) -> u64;
    fn roster_rotate(
        board: *mut u64,
        words: usize,
        shard: u64,
        machine: u64,
        draws: *const u64,
        number: usize,
        results: Results,
    ) -> u64;
    fn roster_resolve(board: *mut u64, words: usize, results: Results) -> u64;
    fn roster_admit_split(board: *mut u64, words: usize, target: u64, results: Results) -> u64;
    fn roster_admit_merge(
        board: *mut u64,
        words: usize,
        target: u64,
        draws: *const u64,
        number: usize,
        results: Results,
    ) -> u64;
    fn roster_draw_cohort(
        board: *mut u64,
        words: usize,
        target: u64,
        draws: *const u64,
        number: usize,
        results: Results,
    ) -> u64;
    fn roster_lapse(board: *mut u64, words: usize, target: u64, results: Results) -> u64;
    fn roster_schedule_splits(
        board: *mut u64,
        words: usize,
        draws: *const u64,
        number: usize,
        results: Results,
    ) -> u64;
    fn roster_schedule_merges(board: *mut u64, words: usize, results: Results) -> u64;
    fn roster_cut_splits(board: *mut u64, words: usize, results: Results) -> u64;
    fn roster_cut_merges(board: *mut u64, words: usize, results: Results) -> u64;
    fn roster_apply(
        snapshot: *const u8,
        bytes: usize,
        step: u64,
        first: u64,
        second: u64,
        draws: *const u64,
        number: usize,
        board: *mut u64,
        words: usize,
        after: *mut u8,
        room: usize,
        results: *mut [u64; 3],
    ) -> u64;
}

/// How many words a board is.
#[must_use]
pub fn words() -> u64 {
    roster_words()
}

/// The most bytes that a snapshot has.
#[must_use]
pub fn snapshot_most() -> u64 {
    roster_snapshot_most()
}

/// 1 if the words hold a well-formed board, else 0.
#[must_use]
pub fn well_formed(board: &[u64]) -> u64 {
    // SAFETY: the board is lent for the whole call, and only read.
    unsafe { roster_well_formed(board.as_ptr(), board.len()) }
}

/// 1 if the words hold a board that passes the seat check, else 0.
#[must_use]
pub fn seat_check(board: &[u64]) -> u64 {
    // SAFETY: the board is lent for the whole call, and only read.
    unsafe { roster_seat_check(board.as_ptr(), board.len()) }
}

/// The board whose snapshot the bytes are, into lent words; words past the board stay as they are.
pub fn read(snapshot: &[u8], board: &mut [u64]) -> u64 {
    // SAFETY: both are lent for the whole call, and the snapshot is only read.
    unsafe {
        roster_read(
            snapshot.as_ptr(),
            snapshot.len(),
            board.as_mut_ptr(),
            board.len(),
        )
    }
}

/// The board's snapshot into lent bytes, and how many it has.
pub fn write(board: &[u64], snapshot: &mut [u8], length: &mut u64) -> u64 {
    // SAFETY: all three are lent for the whole call, and the board is only read.
    unsafe {
        roster_write(
            board.as_ptr(),
            board.len(),
            snapshot.as_mut_ptr(),
            snapshot.len(),
            length,
        )
    }
}

/// Epoch plus one.
pub fn tick(board: &mut [u64], results: &mut [u64; 2]) -> u64 {
    // SAFETY: board and results are lent for the whole call.
    unsafe { roster_tick(board.as_mut_ptr(), board.len(), results) }
}

/// Waiting machines at or past their deadline become ready.
pub fn time_out(board: &mut [u64], results: &mut [u64; 2]) -> u64 {
    // SAFETY: board and results are lent for the whole call.
    unsafe { roster_time_out(board.as_mut_ptr(), board.len(), results) }
}

/// The machine's seat in the reshape at `target` is ready.
pub fn mark_seat_ready(
    board: &mut [u64],
    target: u64,
    machine: u64,
    results: &mut [u64; 2],
) -> u64 {
    // SAFETY: board and results are lent for the whole call.
    unsafe { roster_mark_seat_ready(board.as_mut_ptr(), board.len(), target, machine, results) }
}

/// The reshape's side is quiet: 0 left or a split's only one, 1 right.
pub fn mark_quiet(board: &mut [u64], target: u64, side: u64, results: &mut [u64; 2]) -> u64 {
    // SAFETY: board and results are lent for the whole call.
    unsafe { roster_mark_quiet(board.as_mut_ptr(), board.len(), target, side, results) }
}

/// The machine is short of stake, and its place is filled where document 01 says so.
pub fn leave(board: &mut [u64], machine: u64, draws: &[u64], results: &mut [u64; 2]) -> u64 {
    // SAFETY: board, draws and results are lent for the whole call.
    unsafe {
        roster_leave(
            board.as_mut_ptr(),
            board.len(),
            machine,
            draws.as_ptr(),
            draws.len(),
            results,
        )
    }
}

/// One shard's turn of the shuffle, `machine` being its victim.
pub fn rotate(
    board: &mut [u64],
    shard: u64,
    machine: u64,
    draws: &[u64],
    results: &mut [u64; 2],
) -> u64 {
    // SAFETY: board, draws and results are lent for the whole call.
    unsafe {
        roster_rotate(
            board.as_mut_ptr(),
            board.len(),
            shard,
            machine,
            draws.as_ptr(),
            draws.len(),
            results,
        )
    }
}

/// Rotations whose entrant is ready are closed.
pub fn resolve(board: &mut [u64], results: &mut [u64; 2]) -> u64 {
    // SAFETY: board and results are lent for the whole call.
    unsafe { roster_resolve(board.as_mut_ptr(), board.len(), results) }
}

/// A split of `target` is admitted.
pub fn admit_split(board: &mut [u64], target: u64, results: &mut [u64; 2]) -> u64 {
    // SAFETY: board and results are lent for the whole call.
    unsafe { roster_admit_split(board.as_mut_ptr(), board.len(), target, results) }
}

/// A merge of `target`'s children is admitted, its keepers drawn.
pub fn admit_merge(board: &mut [u64], target: u64, draws: &[u64], results: &mut [u64; 2]) -> u64 {
    // SAFETY: board, draws and results are lent for the whole call.
    unsafe {
        roster_admit_merge(
            board.as_mut_ptr(),
            board.len(),
            target,
            draws.as_ptr(),
            draws.len(),
            results,
        )
    }
}

/// The cohort of the split at `target` is drawn.
pub fn draw_cohort(board: &mut [u64], target: u64, draws: &[u64], results: &mut [u64; 2]) -> u64 {
    // SAFETY: board, draws and results are lent for the whole call.
    unsafe {
        roster_draw_cohort(
            board.as_mut_ptr(),
            board.len(),
            target,
            draws.as_ptr(),
            draws.len(),
            results,
        )
    }
}

/// The cohort of the split at `target` is sent back.
pub fn lapse(board: &mut [u64], target: u64, results: &mut [u64; 2]) -> u64 {
    // SAFETY: board and results are lent for the whole call.
    unsafe { roster_lapse(board.as_mut_ptr(), board.len(), target, results) }
}

/// Splits that pass their gate drain, then get their terminal.
pub fn schedule_splits(board: &mut [u64], draws: &[u64], results: &mut [u64; 2]) -> u64 {
    // SAFETY: board, draws and results are lent for the whole call.
    unsafe {
        roster_schedule_splits(
            board.as_mut_ptr(),
            board.len(),
            draws.as_ptr(),
            draws.len(),
            results,
        )
    }
}

/// Merges that pass their gate drain, then get their terminal.
pub fn schedule_merges(board: &mut [u64], results: &mut [u64; 2]) -> u64 {
    // SAFETY: board and results are lent for the whole call.
    unsafe { roster_schedule_merges(board.as_mut_ptr(), board.len(), results) }
}

/// Splits whose terminal has come are cut.
pub fn cut_splits(board: &mut [u64], results: &mut [u64; 2]) -> u64 {
    // SAFETY: board and results are lent for the whole call.
    unsafe { roster_cut_splits(board.as_mut_ptr(), board.len(), results) }
}

/// Merges whose terminal has come are cut.
pub fn cut_merges(board: &mut [u64], results: &mut [u64; 2]) -> u64 {
    // SAFETY: board and results are lent for the whole call.
    unsafe { roster_cut_merges(board.as_mut_ptr(), board.len(), results) }
}

/// [`read`], the step of a number and [`write`], in one call: `first` and `second` are its arguments in their order, and
/// [`crate::Step::numbers`] has its number. Answers the step's number, or with nothing written 13 where the bytes are no
/// snapshot, 11 where there are too few words or fewer bytes than any snapshot has, 15 where no step has that number.
/// The results are the count handled, the draws used and the length of the snapshot in `after`.
#[allow(clippy::too_many_arguments)]
pub fn apply(
    snapshot: &[u8],
    step: u64,
    first: u64,
    second: u64,
    draws: &[u64],
    board: &mut [u64],
    after: &mut [u8],
    results: &mut [u64; 3],
) -> u64 {
    // SAFETY: all five are lent for the whole call; the snapshot and the draws are only read.
    unsafe {
        roster_apply(
            snapshot.as_ptr(),
            snapshot.len(),
            step,
            first,
            second,
            draws.as_ptr(),
            draws.len(),
            board.as_mut_ptr(),
            board.len(),
            after.as_mut_ptr(),
            after.len(),
            results,
        )
    }
}
