//! The original Rust as the judge: one call to it, what it did, and document
//! 01's view of that. Only behaviour of the six files stands here; a refusal
//! that document 01 adds is the plain reading's affair.

mod convert;
mod run;
mod view;

pub use convert::{SEED, empty_state, from_state, to_boundary, to_record, to_state};
pub use run::{Panic, Ran, Turn, run};
pub use view::{View, view};
