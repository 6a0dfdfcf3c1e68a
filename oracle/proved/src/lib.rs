//! The proved library held against the original Rust and the plain reading,
//! call by call and word for word.

mod case;
mod check;
mod layout;
mod lent;
mod run;
mod shrink;
mod subject;

pub use case::{Case, Expected};
pub use check::Checker;
pub use layout::{WORDS, pack, unpack};
pub use lent::Lent;
pub use run::Run;
pub use shrink::{reproduction, smallest};
pub use subject::{Library, Loan, Round, Subject, arguments, export};
