//! Boards and calls from a seed, the table of what they reach, and the
//! recorded form. The outcomes here are the plain reading's; the crate
//! `compare` holds them against the original Rust.

pub mod cases;
mod choose;
mod damage;
mod disturb;
mod limits;
mod many;
mod passing;
pub mod recorded;
mod rng;
mod series;
pub mod small;
mod table;
mod tally;

pub use limits::Reached;
pub use rng::Rng;
pub use series::{Call, Kind, Made, Series, Sizes, any_series, bytes_of, make_series};
pub use table::{Table, can_occur, step_name};
pub use tally::Tally;
