//! Prints small calls as an antt source file, from their seed.

use calls::small::{print_small, small_calls};

const SEED: u64 = 1;

fn main() {
    print!("{}", print_small(&small_calls(SEED)));
}
