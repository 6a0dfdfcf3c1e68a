//! One shard's turn on a board of its own, kept only where it finished.

use board::{Board, Epoch, Id, Place, Shard, within_limits};

use crate::draws::Draws;
use crate::{Done, Outcome, Slip};

/// The answer where a limit would be passed or an id stand twice.
pub const LIMIT: u64 = 11;

#[derive(Clone)]
pub struct Turn<'a> {
    pub board: Board,
    pub draws: Draws<'a>,
}

/// The count handled, or the answer that refuses.
pub type Result = std::result::Result<u64, u64>;

impl Turn<'_> {
    pub fn slips(&self, slip: Slip) -> bool {
        self.draws.slip == Some(slip)
    }

    pub fn epoch(&self) -> Epoch {
        self.board.settings.epoch
    }

    pub fn size(&self) -> usize {
        self.board.settings.size as usize
    }

    /// 2f+1 with f = (S-1)/3 rounded down.
    pub fn quorum(&self) -> usize {
        2 * ((self.size() - 1) / 3) + 1
    }

    pub fn set(&mut self, id: Id, place: Place) {
        self.board.machines.insert(id, place);
    }

    pub fn pool_if_seated(&mut self, id: Id, shard: Shard) {
        if self.board.is_seated(id, shard) {
            self.set(id, Place::Pooled);
        }
    }

    pub fn strike(&mut self, shard: Shard, id: Id) {
        if let Some(members) = self.board.committees.get_mut(&shard) {
            members.retain(|member| *member != id);
        }
    }

    pub fn join(&mut self, shard: Shard, id: Id) {
        self.board.committees.entry(shard).or_default().push(id);
    }

    pub fn drop_rotations(&mut self, shard: Shard) {
        self.board.rotations.retain(|(at, _), _| *at != shard);
    }

    /// One index below the pool's size seats that machine; none if empty.
    pub fn pool_draw(&mut self, shard: Shard) -> std::result::Result<Option<Id>, u64> {
        let pool = self.board.pool();
        if pool.is_empty() {
            return Ok(None);
        }
        let id = pool[self.draws.index(pool.len())?];
        let seated = Place::Seated {
            shard,
            ready: self.slips(Slip::DrawnReady),
            stamp: self.epoch(),
        };
        self.set(id, seated);
        self.join(shard, id);
        Ok(Some(id))
    }
}

fn finish<'a>(before: &Turn<'a>, act: impl Fn(&mut Turn<'a>) -> Result) -> (Turn<'a>, Result) {
    let mut turn = before.clone();
    let result = act(&mut turn);
    let refused = result.is_ok() && !within_limits(&turn.board);
    (turn, if refused { Err(LIMIT) } else { result })
}

/// A step on one shard: refused, it changes, handles and draws nothing.
pub fn single<'a>(board: &Board, draws: Draws<'a>, act: impl Fn(&mut Turn<'a>) -> Result) -> Done {
    batch(board, draws, vec![0], |turn, _| act(turn))
}

/// A step on many shards: a refused one is undone, later ones aren't tried,
/// earlier ones stand and count.
pub fn batch<'a>(
    board: &Board,
    draws: Draws<'a>,
    targets: Vec<Shard>,
    act: impl Fn(&mut Turn<'a>, Shard) -> Result,
) -> Done {
    let mut turn = Turn {
        board: board.clone(),
        draws,
    };
    let mut handled = 0;
    for target in targets {
        let (after, result) = finish(&turn, |t| act(t, target));
        match result {
            Ok(count) => {
                handled += count;
                turn = after;
            }
            Err(answer) => return done(turn, answer, handled, after.draws.asked),
        }
    }
    let asked = turn.draws.asked.clone();
    done(turn, 0, handled, asked)
}

fn done(turn: Turn<'_>, answer: u64, handled: u64, asked: Vec<u64>) -> Done {
    let used = turn.draws.used as u64;
    Done {
        outcome: Outcome {
            answer,
            handled,
            used,
        },
        board: turn.board,
        asked,
    }
}
