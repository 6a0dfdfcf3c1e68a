//! The numbered answers of document 01.

use std::error::Error;
use std::fmt::{self, Display, Formatter};

/// What a step, a read or a write answers; as a number, document 01's.
#[derive(Clone, Copy, Debug, PartialEq, Eq, PartialOrd, Ord, Hash)]
#[repr(u64)]
pub enum Answer {
    /// 0: done.
    Done,
    /// 1: the words hold no well-formed board.
    NotWellFormed,
    /// 2: a tick at the last epoch.
    LastEpoch,
    /// 3: shard 0, a shard over 65,535, a reshape's target over 32,767, or a side over 1.
    OutOfRange,
    /// 4: a leaving machine, or one of a cut's half or seats, has no record.
    NoRecord,
    /// 5: an admission, a cut or a terminal that is due lacks a boundary.
    NoBoundary,
    /// 6: no such reshape, seat or side; a cohort's need unmet; no split to lapse.
    NotThere,
    /// 7: another reshape names a shard of the family, a committee is missing, or one to be made exists.
    FamilyTaken,
    /// 8: the victim isn't seated there, or is a party of a rotation there.
    VictimUnfit,
    /// 9: the next draw that is needed is missing.
    DrawMissing,
    /// 10: the next draw that is needed is larger than allowed.
    DrawTooLarge,
    /// 11: a limit would be passed, the room lent is too short, or an id would stand twice in a committee.
    NoRoom,
    /// 12: a cohort's draw with fewer than S pooled.
    PoolTooSmall,
    /// 13: the bytes are no well-formed board's snapshot.
    NotASnapshot,
}

impl Answer {
    /// All of them, each at its number.
    pub const ALL: [Self; 14] = [
        Self::Done,
        Self::NotWellFormed,
        Self::LastEpoch,
        Self::OutOfRange,
        Self::NoRecord,
        Self::NoBoundary,
        Self::NotThere,
        Self::FamilyTaken,
        Self::VictimUnfit,
        Self::DrawMissing,
        Self::DrawTooLarge,
        Self::NoRoom,
        Self::PoolTooSmall,
        Self::NotASnapshot,
    ];

    /// Document 01's number.
    #[must_use]
    pub const fn number(self) -> u64 {
        self as u64
    }

    /// The answer with that number.
    #[must_use]
    pub fn from_number(number: u64) -> Option<Self> {
        Self::ALL.get(usize::try_from(number).ok()?).copied()
    }

    /// Document 01's words for it, in short.
    #[must_use]
    pub const fn words(self) -> &'static str {
        match self {
            Self::Done => "done",
            Self::NotWellFormed => "board not well-formed",
            Self::LastEpoch => "tick at the last epoch",
            Self::OutOfRange => "shard, reshape target or side out of range",
            Self::NoRecord => "the machine has no record",
            Self::NoBoundary => "a boundary is missing",
            Self::NotThere => {
                "no such reshape, seat or side, or no split whose cohort may be drawn"
            }
            Self::FamilyTaken => {
                "a shard of the family is named already, a committee is missing, or one to be made exists"
            }
            Self::VictimUnfit => {
                "the victim isn't seated there, or is already victim or entrant there"
            }
            Self::DrawMissing => "next needed draw is missing",
            Self::DrawTooLarge => "next needed draw is larger than allowed",
            Self::NoRoom => {
                "a limit would be passed, the room lent is too short, or an id would stand twice"
            }
            Self::PoolTooSmall => "cohort draw with fewer than S pooled",
            Self::NotASnapshot => "a snapshot isn't a well-formed board's",
        }
    }

    /// `Ok` where it is 0, else the answer as an error.
    ///
    /// # Errors
    ///
    /// Every answer but [`Answer::Done`].
    pub fn done(self) -> Result<(), Self> {
        match self {
            Self::Done => Ok(()),
            refusal => Err(refusal),
        }
    }
}

impl Display for Answer {
    fn fmt(&self, f: &mut Formatter<'_>) -> fmt::Result {
        write!(f, "{}: {}", self.number(), self.words())
    }
}

impl Error for Answer {}
