//! A board and its steps.

use crate::{Answer, exports};

/// How many words a board is.
pub const WORDS: usize = 5_861;

/// The most bytes that a snapshot has.
pub const SNAPSHOT_MOST: usize = 46_816;

/// A shard's number, 1 to 65,535.
#[derive(Clone, Copy, Debug, PartialEq, Eq, PartialOrd, Ord, Hash)]
pub struct ShardId(pub u64);

/// A machine's id.
#[derive(Clone, Copy, Debug, PartialEq, Eq, PartialOrd, Ord, Hash)]
pub struct ValidatorId(pub u64);

/// A board's settings.
#[derive(Clone, Copy, Debug, PartialEq, Eq)]
pub struct Settings {
    /// The epoch, at most 4,294,967,295.
    pub epoch: u64,
    /// S, 4 to 32.
    pub shard_size: u64,
    /// D, at most 1,000,000.
    pub drain_epochs: u64,
    /// W, at most 1,000,000.
    pub ready_wait: u64,
    /// 1 to 1,000,000.
    pub shuffle_interval: u64,
    /// At most 48.
    pub most_in_flight: u64,
}

/// What a step tells. After a refusal every word of the board is as before; of a step over several shards the work on
/// the shards before the refused one stands, and is what the counts say.
#[derive(Clone, Copy, Debug, PartialEq, Eq)]
#[must_use]
pub struct Outcome {
    /// Done, or why not.
    pub answer: Answer,
    /// How much was done: document 01 says of what for each step.
    pub handled: u64,
    /// How many of the lent draws were used.
    pub draws_used: u64,
}

/// A board: [`WORDS`] words, owned or lent (`Board<&mut [u64]>`, by [`Board::over`]). Every step asks first whether they
/// hold a well-formed board, so words from anywhere may be lent: else it answers 1.
#[derive(Clone, Debug, PartialEq, Eq)]
pub struct Board<W = Box<[u64]>> {
    words: W,
}

impl Board {
    /// A board with these settings and nothing on it.
    #[must_use]
    pub fn new(settings: Settings) -> Self {
        let mut words = vec![0; WORDS].into_boxed_slice();
        let Settings {
            epoch,
            shard_size,
            drain_epochs,
            ready_wait,
            shuffle_interval,
            most_in_flight,
        } = settings;
        words[..7].copy_from_slice(&[
            6,
            epoch,
            shard_size,
            drain_epochs,
            ready_wait,
            shuffle_interval,
            most_in_flight,
        ]);
        Self { words }
    }

    /// The board of a snapshot.
    ///
    /// # Errors
    ///
    /// 13 where the bytes are no well-formed board's snapshot.
    pub fn from_snapshot(snapshot: &[u8]) -> Result<Self, Answer> {
        let mut board = Self::over(vec![0; WORDS].into_boxed_slice());
        board.read(snapshot)?;
        Ok(board)
    }
}

fn answered(number: u64) -> Answer {
    Answer::from_number(number).expect("the exports answer 0 to 13")
}

impl<W: AsRef<[u64]> + AsMut<[u64]>> Board<W> {
    /// A board in these words, whatever they hold.
    pub const fn over(words: W) -> Self {
        Self { words }
    }

    /// Its words; docs/DESIGN.md has their layout.
    #[must_use]
    pub fn words(&self) -> &[u64] {
        self.words.as_ref()
    }

    pub(crate) fn words_mut(&mut self) -> &mut [u64] {
        self.words.as_mut()
    }

    /// Its words, given back.
    #[must_use]
    pub fn into_words(self) -> W {
        self.words
    }

    /// Whether the words hold a well-formed board.
    #[must_use]
    pub fn well_formed(&self) -> bool {
        exports::well_formed(self.words()) == 1
    }

    /// Whether the words hold a board that passes the seat check.
    #[must_use]
    pub fn seat_check(&self) -> bool {
        exports::seat_check(self.words()) == 1
    }

    /// Takes the board of a snapshot in place of the one that stands.
    ///
    /// # Errors
    ///
    /// 13 where the bytes are no snapshot, 11 where there are too few words; the words are then as before.
    pub fn read(&mut self, snapshot: &[u8]) -> Result<(), Answer> {
        answered(exports::read(snapshot, self.words.as_mut())).done()
    }

    /// Writes the board's snapshot, and says how many bytes it has; those past them stay as they are.
    ///
    /// # Errors
    ///
    /// 1 where the words hold no well-formed board, 11 where there are too few bytes; no byte is then written.
    pub fn write(&self, snapshot: &mut [u8]) -> Result<usize, Answer> {
        let mut length = 0;
        answered(exports::write(self.words(), snapshot, &mut length)).done()?;
        Ok(length as usize)
    }

    /// The board's snapshot.
    ///
    /// # Errors
    ///
    /// 1 where the words hold no well-formed board.
    pub fn snapshot(&self) -> Result<Vec<u8>, Answer> {
        let mut bytes = vec![0; SNAPSHOT_MOST];
        let length = self.write(&mut bytes)?;
        bytes.truncate(length);
        Ok(bytes)
    }

    fn step(&mut self, export: impl FnOnce(&mut [u64], &mut [u64; 2]) -> u64) -> Outcome {
        let mut results = [0; 2];
        let answer = answered(export(self.words.as_mut(), &mut results));
        let [handled, draws_used] = results;
        Outcome {
            answer,
            handled,
            draws_used,
        }
    }

    /// Epoch plus one.
    pub fn tick(&mut self) -> Outcome {
        self.step(exports::tick)
    }

    /// Waiting machines at or past their deadline become ready.
    pub fn time_out(&mut self) -> Outcome {
        self.step(exports::time_out)
    }

    /// The machine's seat in the reshape at `target` is ready.
    pub fn mark_seat_ready(&mut self, target: ShardId, machine: ValidatorId) -> Outcome {
        self.step(|board, results| exports::mark_seat_ready(board, target.0, machine.0, results))
    }

    /// The reshape's side is quiet: 0 left or a split's only one, 1 right.
    pub fn mark_quiet(&mut self, target: ShardId, side: u64) -> Outcome {
        self.step(|board, results| exports::mark_quiet(board, target.0, side, results))
    }

    /// The machine is short of stake, and its place is filled where document 01 says so. Handled: drawn.
    pub fn leave(&mut self, machine: ValidatorId, draws: &[u64]) -> Outcome {
        self.step(|board, results| exports::leave(board, machine.0, draws, results))
    }

    /// One shard's turn of the shuffle, its victim given. Handled: opened.
    pub fn rotate(&mut self, shard: ShardId, victim: ValidatorId, draws: &[u64]) -> Outcome {
        self.step(|board, results| exports::rotate(board, shard.0, victim.0, draws, results))
    }

    /// Rotations whose entrant is ready are closed. Handled: closed.
    pub fn resolve(&mut self) -> Outcome {
        self.step(exports::resolve)
    }

    /// A split of `target` is admitted.
    pub fn admit_split(&mut self, target: ShardId) -> Outcome {
        self.step(|board, results| exports::admit_split(board, target.0, results))
    }

    /// A merge of `target`'s children is admitted. Handled: keepers drawn.
    pub fn admit_merge(&mut self, target: ShardId, draws: &[u64]) -> Outcome {
        self.step(|board, results| exports::admit_merge(board, target.0, draws, results))
    }

    /// The cohort of the split at `target` is drawn. Handled: S.
    pub fn draw_cohort(&mut self, target: ShardId, draws: &[u64]) -> Outcome {
        self.step(|board, results| exports::draw_cohort(board, target.0, draws, results))
    }

    /// The cohort of the split at `target` is sent back. Handled: pooled.
    pub fn lapse(&mut self, target: ShardId) -> Outcome {
        self.step(|board, results| exports::lapse(board, target.0, results))
    }

    /// Splits that pass their gate drain, then get their terminal. Handled: scheduled.
    pub fn schedule_splits(&mut self, draws: &[u64]) -> Outcome {
        self.step(|board, results| exports::schedule_splits(board, draws, results))
    }

    /// Merges that pass their gate drain, then get their terminal. Handled: scheduled.
    pub fn schedule_merges(&mut self) -> Outcome {
        self.step(exports::schedule_merges)
    }

    /// Splits whose terminal has come are cut. Handled: cut.
    pub fn cut_splits(&mut self) -> Outcome {
        self.step(exports::cut_splits)
    }

    /// Merges whose terminal has come are cut. Handled: cut.
    pub fn cut_merges(&mut self) -> Outcome {
        self.step(exports::cut_merges)
    }
}
