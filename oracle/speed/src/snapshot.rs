//! A snapshot read into the Rust's maps, with every rule of a well-formed
//! board asked on the way, and written from them.

use std::collections::BTreeMap;

use board::{
    BOUNDARIES, Boundary, COMMITTEES, HALF, LARGEST_SIZE, LAST_EPOCH, LAST_MARK, LAST_SHARD,
    LAST_TARGET, LONGEST, MACHINES, MEMBERS, MOST_IN_FLIGHT, OTHER_EPOCHS, Place, RESHAPES,
    ROTATIONS, SEATS, SMALLEST_SIZE, Settings,
};
use hyperscale_types::{
    Admission, BeaconState, CohortSeat, Epoch, KeeperSeat, MergeHalf, PendingReshape,
    PendingRotation, ScheduledSplit, ShardBoundary, ShardCommittee, ShardId, ValidatorId,
    ValidatorRecord, ValidatorStatus,
};
use judge::{SEED, empty_state, to_boundary, to_record};

struct Words<'a> {
    rest: &'a [u8],
}

/// The state of a snapshot, or nothing where it isn't a well-formed board's.
#[must_use]
pub fn read(snapshot: &[u8]) -> Option<BeaconState> {
    let mut from = Words { rest: snapshot };
    let mut state = empty_state(from.settings()?);
    state.validators = from.map(MACHINES, Words::machine)?;
    state.next_shard_committees = from.map(COMMITTEES, Words::committee)?;
    state.boundaries = from.map(BOUNDARIES, Words::boundary)?;
    let rotations = from.map(ROTATIONS, Words::rotation)?;
    for ((shard, victim), rotation) in rotations {
        let there = state.pending_rotations.entry(shard);
        there.or_default().insert(victim, rotation);
    }
    state.pending_reshapes = from.map(RESHAPES, Words::reshape)?;
    from.rest.is_empty().then_some(state)
}

fn holds(rule: bool) -> Option<()> {
    rule.then_some(())
}

fn flag(word: u64) -> Option<bool> {
    (word <= 1).then_some(word == 1)
}

fn shard(word: u64) -> Option<ShardId> {
    (1..=LAST_SHARD).contains(&word).then_some(ShardId(word))
}

fn epoch(word: u64) -> Option<Epoch> {
    (word <= OTHER_EPOCHS).then_some(Epoch(word))
}

/// A flag and a value; under flag 0 the value is 0.
fn optional(set: u64, word: u64) -> Option<Option<Epoch>> {
    match (set, word) {
        (0, 0) => Some(None),
        (1, word) => epoch(word).map(Some),
        _ => None,
    }
}

impl Words<'_> {
    fn next(&mut self) -> Option<u64> {
        self.take().map(|[word]| word)
    }

    fn take<const N: usize>(&mut self) -> Option<[u64; N]> {
        let (bytes, rest) = self.rest.split_at_checked(8 * N)?;
        self.rest = rest;
        let (words, _) = bytes.as_chunks::<8>();
        Some(std::array::from_fn(|at| u64::from_le_bytes(words[at])))
    }

    fn count(&mut self, limit: usize) -> Option<u64> {
        self.next().filter(|count| *count <= limit as u64)
    }

    /// Rows after their count, strictly rising by key.
    fn map<K: Ord + Copy, V>(
        &mut self,
        limit: usize,
        row: impl Fn(&mut Self) -> Option<(K, V)>,
    ) -> Option<BTreeMap<K, V>> {
        let count = self.count(limit)?;
        let mut last = None;
        let mut next = || {
            let (key, value) = row(self)?;
            holds(last < Some(key))?;
            last = Some(key);
            Some((key, value))
        };
        (0..count).map(|_| next()).collect()
    }

    /// Distinct ids after their count.
    fn ids(&mut self, limit: usize) -> Option<Vec<ValidatorId>> {
        let count = self.count(limit)?;
        let ids: Option<Vec<_>> = (0..count).map(|_| self.next().map(ValidatorId)).collect();
        let ids = ids?;
        let mut sorted = ids.clone();
        sorted.sort_unstable();
        let distinct = sorted.windows(2).all(|pair| pair[0] < pair[1]);
        distinct.then_some(ids)
    }

    fn settings(&mut self) -> Option<Settings> {
        let [count, epoch, size, drain, wait, interval, most] = self.take()?;
        holds(count == 6 && epoch <= LAST_EPOCH)?;
        holds((SMALLEST_SIZE..=LARGEST_SIZE).contains(&size))?;
        holds(drain <= LONGEST && wait <= LONGEST)?;
        holds((1..=LONGEST).contains(&interval) && most <= MOST_IN_FLIGHT)?;
        Some(Settings {
            epoch,
            size,
            drain,
            wait,
            interval,
            most,
        })
    }

    fn machine(&mut self) -> Option<(ValidatorId, ValidatorRecord)> {
        let [id, case, mark, ready, stamp] = self.take()?;
        let place = match (case, mark, ready, stamp) {
            (0, 0, 0, 0) => Place::Pooled,
            (1, ..) => Place::Seated {
                shard: shard(mark)?.0,
                ready: flag(ready)?,
                stamp: epoch(stamp)?.0,
            },
            (2, _, 0, _) => Place::Observing {
                shard: shard(mark)?.0,
                stamp: epoch(stamp)?.0,
            },
            (3, 0, 0, 0) => Place::Short,
            (4, 1..=LAST_MARK, 0, 0) => Place::Other(mark),
            _ => return None,
        };
        Some((ValidatorId(id), to_record(place)))
    }

    fn committee(&mut self) -> Option<(ShardId, ShardCommittee)> {
        let shard = shard(self.next()?)?;
        let members = self.ids(MEMBERS)?;
        Some((shard, ShardCommittee { members }))
    }

    fn boundary(&mut self) -> Option<(ShardId, ShardBoundary)> {
        let [
            at,
            height,
            formed,
            last_live,
            ends,
            terminal,
            marked,
            admitted,
        ] = self.take()?;
        let row = Boundary {
            height,
            formed: epoch(formed)?.0,
            last_live: epoch(last_live)?.0,
            terminal: optional(ends, terminal)?.map(|epoch| epoch.0),
            admitted: optional(marked, admitted)?.map(|epoch| epoch.0),
        };
        Some((shard(at)?, to_boundary(row)))
    }

    fn rotation(&mut self) -> Option<((ShardId, ValidatorId), PendingRotation)> {
        let [at, victim, entrant, opened] = self.take()?;
        let row = PendingRotation {
            entrant: ValidatorId(entrant),
            opened_at: epoch(opened)?,
        };
        Some(((shard(at)?, ValidatorId(victim)), row))
    }

    fn seat(&mut self, target: u64) -> Option<(ValidatorId, ShardId, bool)> {
        let [id, child, ready] = self.take()?;
        holds(child / 2 == target)?;
        Some((ValidatorId(id), ShardId(child), flag(ready)?))
    }

    fn reshape(&mut self) -> Option<(ShardId, PendingReshape)> {
        let [
            target,
            kind,
            at,
            drains,
            drain_by,
            ends,
            terminal,
            left,
            right,
        ] = self.take()?;
        holds((1..=LAST_TARGET).contains(&target))?;
        let admitted = Admission {
            at: epoch(at)?,
            drain_by: optional(drains, drain_by)?,
        };
        let terminal = optional(ends, terminal)?;
        let reshape = if flag(kind)? {
            self.merge(target, admitted, terminal, [flag(left)?, flag(right)?])?
        } else {
            holds(right == 0)?;
            self.split(target, admitted, terminal, flag(left)?)?
        };
        Some((ShardId(target), reshape))
    }

    fn merge(
        &mut self,
        target: u64,
        admitted: Admission,
        scheduled_terminal: Option<Epoch>,
        quiet: [bool; 2],
    ) -> Option<PendingReshape> {
        let keepers = self.map(SEATS, |from| {
            let (id, child, ready) = from.seat(target)?;
            Some((id, KeeperSeat { child, ready }))
        })?;
        let halves: [u64; 2] = self.take()?;
        holds(halves == [0, 0])?;
        let (left, right) = ShardId(target).children();
        let [to_left, to_right] = quiet.map(|quiet| MergeHalf { quiet });
        Some(PendingReshape::Merge {
            keepers,
            admitted: Some(admitted),
            halves: BTreeMap::from([(left, to_left), (right, to_right)]),
            scheduled_terminal,
        })
    }

    fn split(
        &mut self,
        target: u64,
        admitted: Admission,
        terminal: Option<Epoch>,
        quiet: bool,
    ) -> Option<PendingReshape> {
        let cohort = self.map(SEATS, |from| {
            let (id, child, ready) = from.seat(target)?;
            Some((id, CohortSeat { child, ready }))
        })?;
        let (left, right) = ShardId(target).children();
        let (to_left, to_right) = (self.ids(HALF)?, self.ids(HALF)?);
        holds(terminal.is_some() || (to_left.is_empty() && to_right.is_empty()))?;
        let halves = BTreeMap::from([(left, to_left), (right, to_right)]);
        Some(PendingReshape::Split {
            cohort,
            cohort_seed: SEED,
            admitted,
            quiet,
            scheduled: terminal.map(|terminal| ScheduledSplit { terminal, halves }),
        })
    }
}

fn put(out: &mut Vec<u8>, words: &[u64]) {
    words
        .iter()
        .for_each(|word| out.extend_from_slice(&word.to_le_bytes()));
}

fn flagged(epoch: Option<Epoch>) -> [u64; 2] {
    epoch.map_or([0, 0], |epoch| [1, epoch.0])
}

/// The state's snapshot, in place of what `out` had.
pub fn write(state: &BeaconState, out: &mut Vec<u8>) {
    out.clear();
    let config = &state.chain_config;
    let size = u64::from(config.shard_size);
    put(out, &[6, state.current_epoch.0, size, config.drain_epochs]);
    put(
        out,
        &[
            config.ready_wait,
            config.shuffle_interval,
            config.most_in_flight,
        ],
    );
    put(out, &[state.validators.len() as u64]);
    for (id, record) in &state.validators {
        put(out, &[id.0]);
        put(out, &place_words(record.status));
    }
    put(out, &[state.next_shard_committees.len() as u64]);
    for (shard, committee) in &state.next_shard_committees {
        put(out, &[shard.0]);
        put_ids(out, &committee.members);
    }
    put(out, &[state.boundaries.len() as u64]);
    for (shard, row) in &state.boundaries {
        put(
            out,
            &[shard.0, row.height.0, row.formed.0, row.last_live_epoch.0],
        );
        put(out, &flagged(row.terminal_epoch));
        put(out, &flagged(row.reshape_admitted_epoch));
    }
    put_rotations(state, out);
    put(out, &[state.pending_reshapes.len() as u64]);
    for (target, reshape) in &state.pending_reshapes {
        put(out, &[target.0]);
        put_reshape(out, reshape);
    }
}

fn put_rotations(state: &BeaconState, out: &mut Vec<u8>) {
    let count: usize = state.pending_rotations.values().map(BTreeMap::len).sum();
    put(out, &[count as u64]);
    for (shard, there) in &state.pending_rotations {
        for (victim, row) in there {
            put(out, &[shard.0, victim.0, row.entrant.0, row.opened_at.0]);
        }
    }
}

fn place_words(status: ValidatorStatus) -> [u64; 4] {
    match status {
        ValidatorStatus::Pooled => [0; 4],
        ValidatorStatus::OnShard {
            shard,
            ready,
            placed_at_epoch,
        } => [1, shard.0, u64::from(ready), placed_at_epoch.0],
        ValidatorStatus::Observing {
            shard,
            placed_at_epoch,
        } => [2, shard.0, 0, placed_at_epoch.0],
        ValidatorStatus::InsufficientStake => [3, 0, 0, 0],
        ValidatorStatus::Other(mark) => [4, u64::from(mark), 0, 0],
    }
}

fn put_ids(out: &mut Vec<u8>, ids: &[ValidatorId]) {
    put(out, &[ids.len() as u64]);
    ids.iter().for_each(|id| put(out, &[id.0]));
}

fn put_seat(out: &mut Vec<u8>, id: ValidatorId, child: ShardId, ready: bool) {
    put(out, &[id.0, child.0, u64::from(ready)]);
}

fn put_reshape(out: &mut Vec<u8>, reshape: &PendingReshape) {
    let (kind, admitted) = match reshape {
        PendingReshape::Split { admitted, .. } => (0, Some(*admitted)),
        PendingReshape::Merge { admitted, .. } => (1, *admitted),
    };
    put(out, &[kind, admitted.map_or(0, |admitted| admitted.at.0)]);
    put(
        out,
        &flagged(admitted.and_then(|admitted| admitted.drain_by)),
    );
    put(out, &flagged(reshape.scheduled_terminal()));
    match reshape {
        PendingReshape::Split {
            cohort,
            quiet,
            scheduled,
            ..
        } => {
            put(out, &[u64::from(*quiet), 0, cohort.len() as u64]);
            let seats = cohort.iter();
            seats.for_each(|(id, seat)| put_seat(out, *id, seat.child, seat.ready));
            match scheduled {
                Some(split) => split.halves.values().for_each(|half| put_ids(out, half)),
                None => put(out, &[0, 0]),
            }
        }
        PendingReshape::Merge {
            keepers, halves, ..
        } => {
            let quiet = halves.values().map(|half| u64::from(half.quiet));
            quiet.for_each(|quiet| put(out, &[quiet]));
            put(out, &[keepers.len() as u64]);
            let seats = keepers.iter();
            seats.for_each(|(id, seat)| put_seat(out, *id, seat.child, seat.ready));
            put(out, &[0, 0]);
        }
    }
}
