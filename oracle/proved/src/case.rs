//! One call to be compared, and what the oracle says of it.

use board::{passes, read};
use calls::{Call, Made, Rng, bytes_of};
use compare::{Witness, against_rust};
use plain::{Outcome, Step};

use crate::layout::{WORDS, pack, unpack};

/// What a board's words are before a snapshot is read into them.
const STALE: u64 = 0x5EA7_5EA7_5EA7_5EA7;

/// A call with the words before it.
#[derive(Clone, Debug, PartialEq, Eq)]
pub struct Case {
    /// A snapshot, of any numbers; its words in full width are the board.
    pub before: Vec<u64>,
    /// How many of its bytes a read is lent.
    pub bytes: u64,
    /// Words of the board that are changed in place.
    pub damage: Vec<(usize, u64)>,
    /// How many words are lent as the board.
    pub words: usize,
    pub call: Call,
}

/// What the oracle says: the plain reading, and the original Rust where it
/// has the step.
pub struct Expected {
    pub outcome: Outcome,
    /// The lent words before and after.
    pub lent: Vec<u64>,
    pub left: Vec<u64>,
    /// The snapshot after, where a well-formed board stood before.
    pub snapshot: Option<Vec<u64>>,
    /// Whether the board after passes the seat check.
    pub seated: bool,
    pub witness: Witness,
}

impl Expected {
    /// The words after that are the board's: a read may be lent more.
    #[must_use]
    pub fn board(&self) -> &[u64] {
        match &self.snapshot {
            Some(_) => &self.left[..WORDS],
            None => &self.left,
        }
    }
}

impl Case {
    #[must_use]
    pub fn new(before: &[u64], call: &Call) -> Self {
        Self {
            before: before.to_vec(),
            bytes: before.len() as u64 * 8,
            damage: Vec::new(),
            words: WORDS,
            call: call.clone(),
        }
    }

    /// The bytes that a read is lent.
    #[must_use]
    pub fn snapshot(&self) -> Vec<u8> {
        let mut bytes = bytes_of(&self.before);
        bytes.truncate(self.bytes as usize);
        bytes
    }

    /// The words that a step is lent, or nothing where the snapshot has no
    /// structure.
    fn lent(&self) -> Option<Vec<u64>> {
        let mut words = if self.call.step == Step::Read {
            vec![STALE; WORDS]
        } else {
            unpack(&self.before)?
        };
        for (at, word) in &self.damage {
            words[*at] = *word;
        }
        words.resize(self.words, STALE);
        Some(words)
    }

    /// What the oracle says of it.
    ///
    /// # Errors
    ///
    /// Where the original Rust and the plain reading differ, or the snapshot
    /// has no structure to lay out.
    pub fn expected(&self) -> Result<Expected, String> {
        let lent = self.lent().ok_or("no snapshot's structure")?;
        if self.call.step == Step::Read {
            return Ok(self.expected_read(lent));
        }
        let held = pack(&lent).filter(|snapshot| read(snapshot).is_some());
        let Some(before) = held else {
            return Ok(refused(1, lent));
        };
        let Call { step, args, draws } = &self.call;
        let (outcome, after) = plain::call(&before, *step, *args, draws);
        let made = Made {
            call: self.call.clone(),
            outcome,
            after,
        };
        let witness = against_rust(&before, &made)?;
        Ok(Expected {
            witness,
            outcome,
            lent,
            left: unpack(&made.after).ok_or("no snapshot after")?,
            seated: seated(&made.after),
            snapshot: Some(made.after),
        })
    }

    fn expected_read(&self, lent: Vec<u64>) -> Expected {
        let outcome = plain::read_snapshot(&self.snapshot());
        if outcome.answer != 0 {
            return refused(outcome.answer, lent);
        }
        if self.words < WORDS {
            return refused(11, lent);
        }
        let mut left = unpack(&self.before).unwrap_or_default();
        left.extend(&lent[WORDS..]);
        Expected {
            outcome,
            lent,
            left,
            seated: seated(&self.before),
            snapshot: Some(self.before.clone()),
            witness: Witness::PlainAlone,
        }
    }
}

fn seated(snapshot: &[u64]) -> bool {
    read(snapshot).is_some_and(|board| passes(&board))
}

fn refused(answer: u64, lent: Vec<u64>) -> Expected {
    Expected {
        outcome: Outcome {
            answer,
            handled: 0,
            used: 0,
        },
        left: lent.clone(),
        lent,
        snapshot: None,
        seated: false,
        witness: Witness::PlainAlone,
    }
}

/// The same step on words damaged in place.
#[must_use]
pub fn damaged(rng: &mut Rng, case: &Case) -> Case {
    let words = case.lent().unwrap_or_default();
    let used: Vec<usize> = (0..WORDS).filter(|at| words[*at] != 0).collect();
    let mut damage = Vec::new();
    for _ in 0..rng.between(1, 2) {
        let anywhere = rng.below(WORDS as u64) as usize;
        let at = rng.pick(&used).filter(|_| rng.chance(60));
        let at = at.unwrap_or(anywhere);
        damage.push((at, spoilt(rng, &words, at)));
    }
    let case = case.clone();
    Case { damage, ..case }
}

/// A number near the one that stands there, another word's, or one past a
/// range.
fn spoilt(rng: &mut Rng, words: &[u64], at: usize) -> u64 {
    let (word, any) = (words[at], rng.word());
    let other = words[rng.below(WORDS as u64) as usize];
    let near = [word.wrapping_add(1), word.wrapping_sub(1), other];
    let odd = [0, 1, 2, 32_768, 65_536, 8_589_934_592, any, u64::MAX];
    let found = if rng.chance(50) {
        rng.pick(&near)
    } else {
        rng.pick(&odd)
    };
    found.unwrap_or(any)
}

/// The same call on another number of words.
#[must_use]
pub fn misnumbered(rng: &mut Rng, case: &Case) -> Case {
    let few = rng.below(WORDS as u64) as usize;
    let numbers = [0, 1, 7, 16, few, WORDS - 1, WORDS + 1, WORDS + few];
    let words = rng.pick(&numbers).unwrap_or(few);
    let case = case.clone();
    Case { words, ..case }
}
