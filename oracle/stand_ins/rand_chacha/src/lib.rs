//! Stand-in for `rand_chacha`: the seed is dropped, the indices are lent.

use rand::{RngExt, SeedableRng};

pub struct ChaCha20Rng;

impl SeedableRng for ChaCha20Rng {
    type Seed = [u8; 32];

    fn from_seed(_seed: [u8; 32]) -> Self {
        Self
    }
}

impl RngExt for ChaCha20Rng {}
