//! A call made by the subject, every answer and every word of it held to what
//! the oracle says.

use calls::{Call, bytes_of};
use plain::{Outcome, Step};
use roster::{Board, SNAPSHOT_MOST};

use crate::case::{Case, Expected};
use crate::{Lent, Loan, Round, Subject, WORDS, pack};

/// Guards around words and around bytes.
const WORD: u64 = 0xA5A5_0123_4567_5A5A;
const BYTE: u8 = 0xC3;

/// What lent counts and bytes are before a call.
const UNSET: u64 = 0x7777_7777_7777_7777;
const BLANK: u8 = 0x99;

/// The words and bytes that are lent, used again for each call.
pub struct Checker<S> {
    pub subject: S,
    board: Lent<u64>,
    draws: Lent<u64>,
    results: Lent<u64>,
    snapshot: Lent<u8>,
    after: Lent<u8>,
}

/// What a step from snapshot to snapshot is lent: bytes in, words and bytes of room, and the number of its step.
#[derive(Clone, Copy)]
struct Apply<'a> {
    number: u64,
    bytes: &'a [u8],
    words: usize,
    room: usize,
}

impl Apply<'_> {
    /// The same with too few words, too few bytes, bytes that are no snapshot or no step's number, in turn; its answer.
    fn refused(mut self, turn: usize) -> (Self, u64) {
        let off = turn / 4 % 3;
        match turn % 4 {
            0 => self.words = WORDS - 1 - off,
            1 => self.room = SNAPSHOT_MOST - 1 - off,
            2 => self.bytes = &self.bytes[..self.bytes.len() - 1 - off],
            _ => self.number = [0, 16, u64::MAX][off],
        }
        (self, [11, 11, 13, 15][turn % 4])
    }
}

fn demand(holds: bool, why: impl FnOnce() -> String) -> Result<(), String> {
    if holds { Ok(()) } else { Err(why()) }
}

fn same<T: PartialEq + std::fmt::Debug>(
    what: &str,
    said: &[T],
    wanted: &[T],
) -> Result<(), String> {
    if said == wanted {
        return Ok(());
    }
    demand(said.len() == wanted.len(), || {
        format!("{what}: another length")
    })?;
    let at = said
        .iter()
        .zip(wanted)
        .position(|(one, other)| one != other)
        .expect("a difference");
    Err(format!(
        "{what}: at {at} the library has {:?} and the oracle {:?}",
        said[at], wanted[at]
    ))
}

fn same_outcome(what: &str, said: Outcome, wanted: Outcome) -> Result<(), String> {
    demand(said == wanted, || {
        format!("{what}: the library says {said:?} and the oracle {wanted:?}")
    })
}

impl<S: Subject> Checker<S> {
    pub fn new(subject: S) -> Self {
        Self {
            subject,
            board: Lent::new(WORD),
            draws: Lent::new(WORD),
            results: Lent::new(WORD),
            snapshot: Lent::new(BYTE),
            after: Lent::new(BYTE),
        }
    }

    /// Makes the call, and all that belongs to it.
    ///
    /// # Errors
    ///
    /// What differs first, in words.
    pub fn check(&mut self, case: &Case) -> Result<Expected, String> {
        let expected = case.expected()?;
        self.take_back();
        if case.call.step == Step::Read {
            self.read(&case.snapshot(), &expected)?;
            self.apply_refused(case, &expected)?;
        } else {
            self.step(&case.call, &expected)?;
            self.again(&case.call, &expected)?;
            self.apply(&case.call, &expected)?;
            let held = u64::from(expected.snapshot.is_some());
            let said = self.subject.well_formed(&expected.lent);
            demand(said == held, || format!("the check before says {said}"))?;
        }
        let left = expected.board();
        let said = self.subject.seat_check(left);
        let wanted = u64::from(expected.seated);
        demand(said == wanted, || format!("the seat check says {said}"))?;
        match &expected.snapshot {
            Some(words) => self.snapshot(left, &bytes_of(words))?,
            None => self.unwritten(left, 1, 64)?,
        }
        Ok(expected)
    }

    /// Nothing is lent, and every guard stands again.
    fn take_back(&mut self) {
        for words in [&mut self.board, &mut self.draws, &mut self.results] {
            words.lend(&[]);
        }
        self.snapshot.lend(&[]);
        self.after.lend(&[]);
    }

    fn guarded(&self, what: &str) -> Result<(), String> {
        let holds = self.board.guarded()
            && self.draws.guarded()
            && self.results.guarded()
            && self.snapshot.guarded()
            && self.after.guarded();
        demand(holds, || format!("{what}: a guard was written over"))
    }

    fn step(&mut self, call: &Call, expected: &Expected) -> Result<(), String> {
        let mut loan = Loan {
            board: self.board.lend(&expected.lent),
            draws: self.draws.lend(&call.draws),
            results: self.results.lend(&[UNSET; 2]),
        };
        let answer = self.subject.step(call, &mut loan);
        let [handled, used] = *self.results.inner() else {
            return Err("two results are lent".to_owned());
        };
        let said = Outcome {
            answer,
            handled,
            used,
        };
        same_outcome("the step", said, expected.outcome)?;
        same("the board", self.board.inner(), &expected.left)?;
        same("the draws", self.draws.inner(), &call.draws)?;
        self.guarded("the step")
    }

    /// Snapshot in, step, snapshot out in one call, on the board that stood there: what the three calls leave. Then the
    /// same call so that it is refused: nothing is written.
    fn apply(&mut self, call: &Call, expected: &Expected) -> Result<(), String> {
        let (Some(before), Some(after)) = (pack(&expected.lent), &expected.snapshot) else {
            return Ok(());
        };
        let (before, after) = (bytes_of(&before), bytes_of(after));
        let past = call.draws.len() % 3;
        let whole = Apply {
            number: call.step as u64,
            bytes: &before,
            words: WORDS + past,
            room: SNAPSHOT_MOST + past,
        };
        let Outcome {
            answer,
            handled,
            used,
        } = expected.outcome;
        let counts = [handled, used, after.len() as u64];
        self.applied(call, &whole, answer, counts)?;
        let (words, rest) = self.board.inner().split_at(WORDS);
        same("the board of the one call", words, &expected.left)?;
        same("the words past it", rest, &vec![UNSET; past])?;
        let (written, rest) = self.after.inner().split_at(after.len());
        same("the snapshot of the one call", written, &after)?;
        let blank = vec![BLANK; whole.room - after.len()];
        same("the bytes past it", rest, &blank)?;
        let (refused, answer) = whole.refused(after.len() / 8);
        self.unapplied(call, &refused, answer)
    }

    /// A tick from bytes that a read refuses is refused as the read is.
    fn apply_refused(&mut self, case: &Case, expected: &Expected) -> Result<(), String> {
        let answer = expected.outcome.answer;
        if answer == 0 {
            return Ok(());
        }
        let apply = Apply {
            number: Step::Tick as u64,
            bytes: &case.snapshot(),
            words: case.words,
            room: SNAPSHOT_MOST,
        };
        self.unapplied(&case.call, &apply, answer)
    }

    /// Makes the one call; its answer and counts, and what is only read.
    fn applied(
        &mut self,
        call: &Call,
        apply: &Apply,
        answer: u64,
        counts: [u64; 3],
    ) -> Result<(), String> {
        let mut round = Round {
            snapshot: self.snapshot.lend(apply.bytes),
            draws: self.draws.lend(&call.draws),
            board: self.board.lend(&vec![UNSET; apply.words]),
            after: self.after.lend(&vec![BLANK; apply.room]),
            results: self.results.lend(&[UNSET; 3]),
        };
        let said = self.subject.apply(apply.number, call, &mut round);
        demand(said == answer, || {
            format!("the one call: the library answers {said} and the oracle {answer}")
        })?;
        same("its counts", self.results.inner(), &counts)?;
        same("its bytes read", self.snapshot.inner(), apply.bytes)?;
        same("its draws", self.draws.inner(), &call.draws)?;
        self.guarded("the one call")
    }

    fn unapplied(&mut self, call: &Call, apply: &Apply, answer: u64) -> Result<(), String> {
        self.applied(call, apply, answer, [UNSET; 3])?;
        let (words, bytes) = (vec![UNSET; apply.words], vec![BLANK; apply.room]);
        same("the words of a refused call", self.board.inner(), &words)?;
        same("the bytes of a refused call", self.after.inner(), &bytes)
    }

    /// The same call on an equal board, owned and without guards, so that
    /// memory checkers see its ends.
    fn again(&mut self, call: &Call, expected: &Expected) -> Result<(), String> {
        let mut board = Board::over(expected.lent.clone().into_boxed_slice());
        let said = self.subject.again(call, &mut board);
        same_outcome("the step made again", said, expected.outcome)?;
        same(
            "the board of the step made again",
            board.words(),
            &expected.left,
        )
    }

    fn read(&mut self, bytes: &[u8], expected: &Expected) -> Result<(), String> {
        self.board.lend(&expected.lent);
        self.snapshot.lend(bytes);
        let answer = self.subject.read(&mut self.snapshot, &mut self.board);
        let wanted = expected.outcome.answer;
        demand(answer == wanted, || {
            format!("the read: the library answers {answer} and the oracle {wanted}")
        })?;
        same("the board read", self.board.inner(), &expected.left)?;
        same("the bytes read", self.snapshot.inner(), bytes)?;
        self.guarded("the read")
    }

    /// The board after is well-formed, and its snapshot is written into as
    /// many bytes, more or too few, and read back.
    fn snapshot(&mut self, left: &[u64], bytes: &[u8]) -> Result<(), String> {
        let said = self.subject.well_formed(left);
        demand(said == 1, || format!("the check after says {said}"))?;
        self.written(left, bytes, 0)?;
        self.written(left, bytes, 5)?;
        self.unwritten(left, 11, bytes.len() - 1)?;
        self.board.lend(&[UNSET; crate::WORDS]);
        self.snapshot.lend(bytes);
        let answer = self.subject.read(&mut self.snapshot, &mut self.board);
        demand(answer == 0, || {
            format!("its own snapshot is answered {answer}")
        })?;
        same("its own snapshot read back", self.board.inner(), left)
    }

    /// The answer of a write and the length that it tells.
    fn write(&mut self, board: &[u64], room: usize) -> Result<(u64, u64), String> {
        self.snapshot.lend(&vec![BLANK; room]);
        self.results.lend(&[UNSET]);
        let answer = self
            .subject
            .write(board, &mut self.snapshot, &mut self.results);
        self.guarded("the write")?;
        Ok((answer, self.results.inner()[0]))
    }

    fn written(&mut self, board: &[u64], bytes: &[u8], past: usize) -> Result<(), String> {
        let said = self.write(board, bytes.len() + past)?;
        let wanted = (0, bytes.len() as u64);
        demand(said == wanted, || {
            format!("the write: the library says {said:?} and the oracle {wanted:?}")
        })?;
        let (written, rest) = self.snapshot.inner().split_at(bytes.len());
        same("the snapshot", written, bytes)?;
        same("the bytes past the snapshot", rest, &vec![BLANK; past])
    }

    fn unwritten(&mut self, board: &[u64], answer: u64, room: usize) -> Result<(), String> {
        let said = self.write(board, room)?;
        let wanted = (answer, UNSET);
        demand(said == wanted, || {
            format!("the refused write: the library says {said:?} and the oracle {wanted:?}")
        })?;
        same(
            "the bytes of a refused write",
            self.snapshot.inner(),
            &vec![BLANK; room],
        )
    }
}
