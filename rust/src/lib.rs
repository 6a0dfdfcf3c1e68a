//! The seat roster, proved in Rattle, for Rust to call: [`Board`] and its fifteen steps.
//!
//! Nothing in the roster allocates or panics, and every input has an answer:
//! see [`Answer`] for the numbers of document 01.
//!
//! ```
//! use roster::{Answer, Board, Settings, ShardId};
//!
//! let mut board = Board::new(Settings {
//!     epoch: 5,
//!     shard_size: 4,
//!     drain_epochs: 2,
//!     ready_wait: 3,
//!     shuffle_interval: 10,
//!     most_in_flight: 2,
//! });
//! assert_eq!(board.tick().answer, Answer::Done);
//! assert_eq!(board.admit_split(ShardId(1)).answer, Answer::FamilyTaken); // shard 1 has no committee
//! let kept = board.snapshot()?;
//! assert_eq!(Board::from_snapshot(&kept)?, board);
//! # Ok::<(), Answer>(())
//! ```

#![deny(missing_docs)]
#![deny(unsafe_code)]

mod answer;
mod apply;
mod board;
pub mod exports;

pub use answer::Answer;
pub use apply::{Applied, Step};
pub use board::{Board, Outcome, SNAPSHOT_MOST, Settings, ShardId, ValidatorId, WORDS};
