//! Reading a snapshot: every rule of document 01's paragraph on well-formed
//! boards is asked while the words go by.

use std::collections::BTreeMap;

use crate::{
    BOUNDARIES, Board, Boundary, COMMITTEES, HALF, Kind, LARGEST_SIZE, LAST_EPOCH, LAST_MARK,
    LAST_SHARD, LAST_TARGET, LONGEST, MACHINES, MEMBERS, MOST_IN_FLIGHT, OTHER_EPOCHS, Place,
    RESHAPES, ROTATIONS, Reshape, Rotation, SEATS, SETTINGS, SMALLEST_SIZE, Seat, Settings,
    distinct,
};

/// The board of a snapshot, or nothing where it isn't a well-formed board's.
#[must_use]
pub fn read(words: &[u64]) -> Option<Board> {
    let mut from = Words { rest: words };
    let board = Board {
        settings: from.settings()?,
        machines: from.table(MACHINES, Words::machine)?,
        committees: from.table(COMMITTEES, Words::committee)?,
        boundaries: from.table(BOUNDARIES, Words::boundary)?,
        rotations: from.table(ROTATIONS, Words::rotation)?,
        reshapes: from.table(RESHAPES, Words::reshape)?,
    };
    from.rest.is_empty().then_some(board)
}

/// The board of a snapshot's bytes, which are whole words.
#[must_use]
pub fn read_bytes(bytes: &[u8]) -> Option<Board> {
    let (words, rest) = bytes.as_chunks::<8>();
    let words: Vec<u64> = words.iter().map(|word| u64::from_le_bytes(*word)).collect();
    if rest.is_empty() { read(&words) } else { None }
}

/// Whether the words have a snapshot's structure: six settings, each count
/// within its limit, no word missing or left. Their numbers may be any.
#[must_use]
pub fn structured(words: &[u64]) -> bool {
    let mut from = Words { rest: words };
    from.skip_sections().is_some() && from.rest.is_empty()
}

struct Words<'a> {
    rest: &'a [u64],
}

impl Words<'_> {
    fn any(&mut self) -> Option<u64> {
        let (first, rest) = self.rest.split_first()?;
        self.rest = rest;
        Some(*first)
    }

    fn within(&mut self, smallest: u64, largest: u64) -> Option<u64> {
        self.any().filter(|n| (smallest..=largest).contains(n))
    }

    fn count(&mut self, limit: usize) -> Option<usize> {
        self.within(0, limit as u64).map(|n| n as usize)
    }

    fn zero(&mut self) -> Option<u64> {
        self.within(0, 0)
    }

    fn flag(&mut self) -> Option<bool> {
        self.within(0, 1).map(|n| n == 1)
    }

    fn shard(&mut self) -> Option<u64> {
        self.within(1, LAST_SHARD)
    }

    fn epoch(&mut self) -> Option<u64> {
        self.within(0, OTHER_EPOCHS)
    }

    /// A flag and a value; under flag 0 the value is 0.
    fn flagged_epoch(&mut self) -> Option<Option<u64>> {
        if self.flag()? {
            self.epoch().map(Some)
        } else {
            self.zero().map(|_| None)
        }
    }

    /// Distinct ids after their count.
    fn ids(&mut self, limit: usize) -> Option<Vec<u64>> {
        let count = self.count(limit)?;
        let ids = (0..count).map(|_| self.any()).collect::<Option<Vec<_>>>()?;
        distinct(&ids).then_some(ids)
    }

    /// Rows after their count, strictly rising by key.
    fn table<K: Ord, V>(
        &mut self,
        limit: usize,
        row: impl Fn(&mut Self) -> Option<(K, V)>,
    ) -> Option<BTreeMap<K, V>> {
        let mut rows = BTreeMap::new();
        for _ in 0..self.count(limit)? {
            let (key, value) = row(self)?;
            if rows.last_key_value().is_some_and(|(last, _)| *last >= key) {
                return None;
            }
            rows.insert(key, value);
        }
        Some(rows)
    }

    fn settings(&mut self) -> Option<Settings> {
        self.within(SETTINGS as u64, SETTINGS as u64)?;
        Some(Settings {
            epoch: self.within(0, LAST_EPOCH)?,
            size: self.within(SMALLEST_SIZE, LARGEST_SIZE)?,
            drain: self.within(0, LONGEST)?,
            wait: self.within(0, LONGEST)?,
            interval: self.within(1, LONGEST)?,
            most: self.within(0, MOST_IN_FLIGHT)?,
        })
    }

    fn machine(&mut self) -> Option<(u64, Place)> {
        let id = self.any()?;
        let place = match self.within(0, 4)? {
            0 => self.unused(3).map(|()| Place::Pooled),
            1 => Some(Place::Seated {
                shard: self.shard()?,
                ready: self.flag()?,
                stamp: self.epoch()?,
            }),
            2 => {
                let shard = self.shard()?;
                self.zero()?;
                let stamp = self.epoch()?;
                Some(Place::Observing { shard, stamp })
            }
            3 => self.unused(3).map(|()| Place::Short),
            _ => {
                let mark = self.within(1, LAST_MARK)?;
                self.unused(2).map(|()| Place::Other(mark))
            }
        };
        Some((id, place?))
    }

    fn unused(&mut self, words: usize) -> Option<()> {
        (0..words).try_for_each(|_| self.zero().map(|_| ()))
    }

    fn committee(&mut self) -> Option<(u64, Vec<u64>)> {
        Some((self.shard()?, self.ids(MEMBERS)?))
    }

    fn boundary(&mut self) -> Option<(u64, Boundary)> {
        let shard = self.shard()?;
        let row = Boundary {
            height: self.any()?,
            formed: self.epoch()?,
            last_live: self.epoch()?,
            terminal: self.flagged_epoch()?,
            admitted: self.flagged_epoch()?,
        };
        Some((shard, row))
    }

    fn rotation(&mut self) -> Option<((u64, u64), Rotation)> {
        let key = (self.shard()?, self.any()?);
        let row = Rotation {
            entrant: self.any()?,
            opened: self.epoch()?,
        };
        Some((key, row))
    }

    fn reshape(&mut self) -> Option<(u64, Reshape)> {
        let target = self.within(1, LAST_TARGET)?;
        let kind = if self.flag()? {
            Kind::Merge
        } else {
            Kind::Split
        };
        let row = Reshape {
            kind,
            admitted: self.epoch()?,
            drain_by: self.flagged_epoch()?,
            scheduled: self.flagged_epoch()?,
            quiet: [self.flag()?, self.flag()?],
            seats: self.table(SEATS, |from| from.seat(target))?,
            halves: [self.ids(HALF)?, self.ids(HALF)?],
        };
        let halved = row.halves.iter().any(|half| !half.is_empty());
        let may_halve = kind == Kind::Split && row.scheduled.is_some();
        let one_side = kind == Kind::Merge || !row.quiet[1];
        (one_side && (may_halve || !halved)).then_some((target, row))
    }

    fn seat(&mut self, target: u64) -> Option<(u64, Seat)> {
        let id = self.any()?;
        let child = self.within(2 * target, 2 * target + 1)?;
        let ready = self.flag()?;
        Some((id, Seat { child, ready }))
    }

    fn skip(&mut self, words: usize) -> Option<()> {
        self.rest = self.rest.get(words..)?;
        Some(())
    }

    fn skip_rows(&mut self, limit: usize, width: usize) -> Option<()> {
        let rows = self.count(limit)?;
        self.skip(rows * width)
    }

    fn skip_sections(&mut self) -> Option<()> {
        self.within(SETTINGS as u64, SETTINGS as u64)?;
        self.skip(SETTINGS)?;
        self.skip_rows(MACHINES, 5)?;
        for _ in 0..self.count(COMMITTEES)? {
            self.skip(1)?;
            self.skip_rows(MEMBERS, 1)?;
        }
        self.skip_rows(BOUNDARIES, 8)?;
        self.skip_rows(ROTATIONS, 4)?;
        for _ in 0..self.count(RESHAPES)? {
            self.skip(9)?;
            self.skip_rows(SEATS, 3)?;
            self.skip_rows(HALF, 1)?;
            self.skip_rows(HALF, 1)?;
        }
        Some(())
    }
}
