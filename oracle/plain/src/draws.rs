//! The reader over lent draws.

use crate::Slip;

/// Answers of the draws: the next one is missing, or larger than allowed.
pub const MISSING: u64 = 9;
pub const TOO_LARGE: u64 = 10;

#[derive(Clone, Debug)]
pub struct Draws<'a> {
    list: &'a [u64],
    pub used: usize,
    /// The largest value each draw might have had, the refused one's too.
    pub asked: Vec<u64>,
    pub slip: Option<Slip>,
}

impl<'a> Draws<'a> {
    #[must_use]
    pub fn new(list: &'a [u64], slip: Option<Slip>) -> Self {
        Self {
            list,
            used: 0,
            asked: Vec::new(),
            slip,
        }
    }

    fn at_most(&mut self, largest: u64) -> Result<usize, u64> {
        self.asked.push(largest);
        let draw = *self.list.get(self.used).ok_or(MISSING)?;
        if draw > largest {
            return Err(TOO_LARGE);
        }
        self.used += 1;
        Ok(draw as usize)
    }

    /// An index below `n`, which is not 0.
    pub fn index(&mut self, n: usize) -> Result<usize, u64> {
        self.at_most(n as u64 - 1)
    }

    /// For i from n-1 down to 1: a draw j at most i, places i and j exchanged.
    pub fn shuffle(&mut self, ids: &mut [u64]) -> Result<(), u64> {
        for i in (1..ids.len()).rev() {
            let j = self.at_most(i as u64)?;
            ids.swap(i, j);
        }
        Ok(())
    }
}
