//! Stand-in for `hyperscale_types`, written from document 01 and from how the
//! six files use it. What document 01 leaves out (stake, emissions, the beacon
//! committee, recovery) is here to compile and is never called.

mod left_out;
mod numbers;
mod reshape;
mod state;

pub use left_out::*;
pub use numbers::*;
pub use reshape::*;
pub use state::*;
