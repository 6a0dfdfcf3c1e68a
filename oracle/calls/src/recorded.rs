//! The recorded calls: which they are, and their form, which
//! docs/RECORDED.md says word by word.

use board::checksum;
use plain::{Args, Outcome, Step};

use crate::{Call, Kind, Made, Rng, Series, Sizes, Table, bytes_of, can_occur, make_series};

/// The first word of the file.
pub const FORM: u64 = 1;

/// Every pair that can occur is recorded this often at least.
const LEAST: u64 = 8;

/// The series of the recorded file, from its seed alone.
#[must_use]
pub fn recorded_series(seed: u64) -> Vec<Series> {
    let mut rng = Rng::new(seed);
    let mut all = Vec::new();
    for (kind, count) in [
        (Kind::Passing, 115),
        (Kind::Disturbed, 260),
        (Kind::Many, 130),
        (Kind::Limits, 16),
        (Kind::Misnumbered, 110),
        (Kind::Broken, 160),
    ] {
        for _ in 0..count {
            let sizes = match kind {
                Kind::Passing => mixed(&mut rng, 150),
                Kind::Many => several(&mut rng),
                Kind::Misnumbered | Kind::Broken => tiny(&mut rng),
                Kind::Disturbed | Kind::Limits => mixed(&mut rng, 60),
            };
            all.push(make_series(&mut rng, kind, sizes));
        }
    }
    add_rare(&mut rng, &mut all);
    all
}

/// Small boards mostly.
fn mixed(rng: &mut Rng, calls: u64) -> Sizes {
    let size = match rng.below(10) {
        0 => (4, 32),
        1 | 2 => (6, 12),
        _ => (4, 6),
    };
    let shards = rng.between(1, 3);
    let fewest = size.1 * (shards + 2);
    Sizes {
        size,
        shards,
        machines: rng.between(fewest, fewest + 2 * size.1) as usize,
        calls,
    }
}

/// Several shards, with a pool for all of them.
fn several(rng: &mut Rng) -> Sizes {
    Sizes {
        size: (4, 5),
        shards: rng.between(3, 6),
        machines: 40,
        calls: 6,
    }
}

/// Snapshots that are not even read need no size.
fn tiny(rng: &mut Rng) -> Sizes {
    Sizes {
        size: (4, 5),
        shards: rng.between(1, 2),
        machines: 14,
        calls: 40,
    }
}

/// More series, each up to a pair that was recorded too seldom.
fn add_rare(rng: &mut Rng, all: &mut Vec<Series>) {
    let mut table = count(all);
    for _ in 0..200_000 {
        if short_pairs(&table) == 0 {
            return;
        }
        let kind = [Kind::Limits, Kind::Disturbed][rng.below(2) as usize];
        let sizes = mixed(rng, 60);
        let mut series = make_series(rng, kind, sizes);
        let seldom = |made: &Made| table.at(made.call.step, made.outcome.answer) < LEAST;
        if let Some(last) = series.made.iter().rposition(seldom) {
            series.made.truncate(last + 1);
            let reached = series.made.iter();
            reached.for_each(|made| table.count(made.call.step, made.outcome));
            all.push(series);
        }
    }
}

fn short_pairs(table: &Table) -> usize {
    let pairs = Step::ALL.into_iter();
    let pairs = pairs.flat_map(|step| can_occur(step).iter().map(move |answer| (step, *answer)));
    pairs
        .filter(|(step, answer)| table.at(*step, *answer) < LEAST)
        .count()
}

/// The table of the pairs that these series reach.
#[must_use]
pub fn count(all: &[Series]) -> Table {
    let mut table = Table::default();
    for made in all.iter().flat_map(|series| &series.made) {
        table.count(made.call.step, made.outcome);
    }
    table
}

/// The file's bytes.
#[must_use]
pub fn encode(all: &[Series]) -> Vec<u8> {
    let mut words = vec![FORM, all.len() as u64];
    for series in all {
        words.push(series.bytes);
        words.extend(&series.start);
        words.push(series.made.len() as u64);
        for made in &series.made {
            put_call(&mut words, made);
        }
        let end = series.made.last().map_or(&series.start, |made| &made.after);
        words.push(end.len() as u64);
        words.extend(end);
    }
    bytes_of(&words)
}

fn put_call(words: &mut Vec<u64>, made: &Made) {
    let Call { step, args, draws } = &made.call;
    let Outcome {
        answer,
        handled,
        used,
    } = made.outcome;
    let counts = (handled << 16) | (used << 32) | ((draws.len() as u64) << 48);
    words.push(*step as u64 | (answer << 8) | counts);
    words.extend([args.shard, args.machine, args.side]);
    words.extend(draws);
    words.push(checksum(&made.after));
}

/// A call as recorded: the snapshot after it by its checksum alone.
#[derive(Clone, Debug)]
pub struct Line {
    pub call: Call,
    pub outcome: Outcome,
    pub checksum: u64,
}

#[derive(Clone, Debug)]
pub struct Recorded {
    pub start: Vec<u64>,
    pub bytes: u64,
    pub lines: Vec<Line>,
    pub end: Vec<u64>,
}

/// The series of a recorded file, or nothing where it hasn't the form.
#[must_use]
pub fn decode(bytes: &[u8]) -> Option<Vec<Recorded>> {
    let (chunks, rest) = bytes.as_chunks::<8>();
    let words: Vec<u64> = chunks
        .iter()
        .map(|word| u64::from_le_bytes(*word))
        .collect();
    let mut from = Words { rest: &words };
    if !rest.is_empty() || from.next()? != FORM {
        return None;
    }
    let count = from.next()?;
    let all = (0..count)
        .map(|_| from.series())
        .collect::<Option<Vec<_>>>()?;
    from.rest.is_empty().then_some(all)
}

struct Words<'a> {
    rest: &'a [u64],
}

impl Words<'_> {
    fn next(&mut self) -> Option<u64> {
        self.take(1).map(|words| words[0])
    }

    fn take(&mut self, count: u64) -> Option<Vec<u64>> {
        let (taken, rest) = self.rest.split_at_checked(usize::try_from(count).ok()?)?;
        self.rest = rest;
        Some(taken.to_vec())
    }

    fn series(&mut self) -> Option<Recorded> {
        let bytes = self.next()?;
        let start = self.take(bytes.div_ceil(8))?;
        let count = self.next()?;
        let lines = (0..count)
            .map(|_| self.line())
            .collect::<Option<Vec<_>>>()?;
        let length = self.next()?;
        let end = self.take(length)?;
        Some(Recorded {
            start,
            bytes,
            lines,
            end,
        })
    }

    fn line(&mut self) -> Option<Line> {
        let head = self.next()?;
        let args = Args {
            shard: self.next()?,
            machine: self.next()?,
            side: self.next()?,
        };
        let step = Step::from_code(head & 0xFF)?;
        let draws = self.take(head >> 48)?;
        Some(Line {
            call: Call { step, args, draws },
            outcome: Outcome {
                answer: (head >> 8) & 0xFF,
                handled: (head >> 16) & 0xFFFF,
                used: (head >> 32) & 0xFFFF,
            },
            checksum: self.next()?,
        })
    }
}

impl Recorded {
    /// The series with every snapshot, where the plain reading agrees with
    /// each line and with the end.
    ///
    /// # Errors
    ///
    /// The first call that differs, in words.
    pub fn replay(&self) -> Result<Series, String> {
        let mut words = self.start.clone();
        let mut made = Vec::new();
        for (i, line) in self.lines.iter().enumerate() {
            let (outcome, after) = self.answer(&words, &line.call);
            if outcome != line.outcome || checksum(&after) != line.checksum {
                return Err(format!("call {i}: {outcome:?}, recorded {line:?}"));
            }
            words.clone_from(&after);
            let call = line.call.clone();
            made.push(Made {
                call,
                outcome,
                after,
            });
        }
        if words != self.end {
            return Err("the snapshot at the end differs".to_owned());
        }
        Ok(Series {
            start: self.start.clone(),
            bytes: self.bytes,
            made,
        })
    }

    fn answer(&self, words: &[u64], call: &Call) -> (Outcome, Vec<u64>) {
        if call.step == Step::Read && !self.bytes.is_multiple_of(8) {
            let bytes = bytes_of(&self.start);
            return (
                plain::read_snapshot(&bytes[..self.bytes as usize]),
                words.to_vec(),
            );
        }
        plain::call(words, call.step, call.args, &call.draws)
    }
}
