//! Stand-in for `rand`: every index is the next one of a lent list, checked
//! against the range asked. A missing or too large one unwinds with a
//! [`Fault`], since the original has no way to refuse it.

use std::cell::RefCell;
use std::ops::{Range, RangeInclusive};
use std::panic::panic_any;

#[derive(Clone, Copy, Debug, PartialEq, Eq)]
pub enum Fault {
    Missing,
    TooLarge,
}

struct Lent {
    draws: Vec<u64>,
    used: usize,
}

thread_local! {
    static LENT: RefCell<Lent> = const { RefCell::new(Lent { draws: Vec::new(), used: 0 }) };
}

/// Lend `draws` to every generator of this thread, from the first one on.
pub fn lend(draws: &[u64]) {
    LENT.with_borrow_mut(|lent| {
        lent.draws = draws.to_vec();
        lent.used = 0;
    });
}

/// How many of the lent draws were taken.
#[must_use]
pub fn used() -> usize {
    LENT.with_borrow(|lent| lent.used)
}

fn next_at_most(largest: u64) -> u64 {
    let taken = LENT.with_borrow_mut(|lent| match lent.draws.get(lent.used) {
        None => Err(Fault::Missing),
        Some(draw) if *draw > largest => Err(Fault::TooLarge),
        Some(draw) => {
            lent.used += 1;
            Ok(*draw)
        }
    });
    taken.unwrap_or_else(|fault| panic_any(fault))
}

pub trait SeedableRng {
    type Seed;
    fn from_seed(seed: Self::Seed) -> Self;
}

/// A range that starts at 0, as all of the original's do.
pub trait FromZero<T> {
    fn next(self) -> T;
}

impl FromZero<usize> for RangeInclusive<usize> {
    fn next(self) -> usize {
        assert_eq!(*self.start(), 0, "the original draws from 0");
        next_at_most(*self.end() as u64) as usize
    }
}

impl FromZero<usize> for Range<usize> {
    fn next(self) -> usize {
        assert!(self.start == 0 && self.end > 0, "the original draws from 0");
        next_at_most(self.end as u64 - 1) as usize
    }
}

impl FromZero<u64> for Range<u64> {
    fn next(self) -> u64 {
        assert!(self.start == 0 && self.end > 0, "the original draws from 0");
        next_at_most(self.end - 1)
    }
}

pub trait RngExt {
    fn random_range<T, R: FromZero<T>>(&mut self, range: R) -> T {
        range.next()
    }
}
