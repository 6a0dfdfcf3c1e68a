//! A board as the original's state, and back.

use std::collections::BTreeMap;

use board::{Board, Boundary, Kind, Place, Reshape, Rotation, Seat, Settings};
use hyperscale_types::{
    Admission, BeaconChainConfig, BeaconState, BeaconWitnessLeafCount, BlockHash, BlockHeight,
    CohortSeat, DeclaredWork, Epoch, KeeperSeat, MergeHalf, PendingReshape, PendingRotation,
    Randomness, ScheduledSplit, ShardBoundary, ShardCommittee, ShardId, StakePoolId, StateRoot,
    ValidatorId, ValidatorRecord, ValidatorStatus, WeightedTimestamp,
};

pub const SEED: Randomness = Randomness([0; 32]);

/// The state with these settings and nothing else.
#[must_use]
pub fn empty_state(settings: Settings) -> BeaconState {
    BeaconState {
        current_epoch: Epoch(settings.epoch),
        randomness: SEED,
        chain_config: to_config(settings),
        validators: BTreeMap::new(),
        next_shard_committees: BTreeMap::new(),
        boundaries: BTreeMap::new(),
        pending_rotations: BTreeMap::new(),
        pending_reshapes: BTreeMap::new(),
        pending_recoveries: BTreeMap::new(),
        fork_flagged: BTreeMap::new(),
        miss_counters: BTreeMap::new(),
        pools: BTreeMap::new(),
        committee: Vec::new(),
        last_beacon_service: BTreeMap::new(),
        given_victim: None,
    }
}

#[must_use]
pub fn to_state(board: &Board) -> BeaconState {
    let mut rotations: BTreeMap<ShardId, BTreeMap<ValidatorId, PendingRotation>> = BTreeMap::new();
    for ((shard, victim), row) in &board.rotations {
        let rotation = PendingRotation {
            entrant: ValidatorId(row.entrant),
            opened_at: Epoch(row.opened),
        };
        let there = rotations.entry(ShardId(*shard)).or_default();
        there.insert(ValidatorId(*victim), rotation);
    }
    BeaconState {
        validators: keyed(&board.machines, ValidatorId, |_, place| to_record(*place)),
        next_shard_committees: keyed(&board.committees, ShardId, |_, ids| to_committee(ids)),
        boundaries: keyed(&board.boundaries, ShardId, |_, row| to_boundary(*row)),
        pending_rotations: rotations,
        pending_reshapes: keyed(&board.reshapes, ShardId, to_reshape),
        ..empty_state(board.settings)
    }
}

fn keyed<V, K: Ord, W>(
    rows: &BTreeMap<u64, V>,
    key: impl Fn(u64) -> K,
    value: impl Fn(u64, &V) -> W,
) -> BTreeMap<K, W> {
    rows.iter().map(|(k, v)| (key(*k), value(*k, v))).collect()
}

fn to_config(settings: Settings) -> BeaconChainConfig {
    BeaconChainConfig {
        shard_size: settings.size as u32,
        beacon_committee_size: 0,
        drain_epochs: settings.drain,
        ready_wait: settings.wait,
        shuffle_interval: settings.interval,
        most_in_flight: settings.most,
    }
}

#[must_use]
pub fn to_record(place: Place) -> ValidatorRecord {
    let status = match place {
        Place::Pooled => ValidatorStatus::Pooled,
        Place::Seated {
            shard,
            ready,
            stamp,
        } => ValidatorStatus::OnShard {
            shard: ShardId(shard),
            ready,
            placed_at_epoch: Epoch(stamp),
        },
        Place::Observing { shard, stamp } => ValidatorStatus::Observing {
            shard: ShardId(shard),
            placed_at_epoch: Epoch(stamp),
        },
        Place::Short => ValidatorStatus::InsufficientStake,
        Place::Other(mark) => ValidatorStatus::Other(mark as u8),
    };
    ValidatorRecord {
        status,
        pool: StakePoolId(0),
        registered_at_epoch: Epoch::GENESIS,
    }
}

fn to_committee(ids: &[u64]) -> ShardCommittee {
    ShardCommittee {
        members: ids.iter().copied().map(ValidatorId).collect(),
    }
}

#[must_use]
pub fn to_boundary(row: Boundary) -> ShardBoundary {
    ShardBoundary {
        boundary_qc: None,
        state_root: StateRoot::ZERO,
        block_hash: BlockHash::ZERO,
        height: BlockHeight(row.height),
        weighted_timestamp: WeightedTimestamp::ZERO,
        witness_leaf_count: BeaconWitnessLeafCount::ZERO,
        witness_base: BeaconWitnessLeafCount::ZERO,
        cumulative_fees: 0,
        used: DeclaredWork::ZERO,
        blocks: 0,
        substate_bytes: 0,
        formed: Epoch(row.formed),
        last_live_epoch: Epoch(row.last_live),
        consecutive_misses: 0,
        terminal_epoch: row.terminal.map(Epoch),
        handoff_complete: None,
        terminal_delivered: false,
        terminal_settled_txs: None,
        reshape_admitted_epoch: row.admitted.map(Epoch),
    }
}

pub fn to_reshape(target: u64, reshape: &Reshape) -> PendingReshape {
    let (left, right) = ShardId(target).children();
    let admitted = Admission {
        at: Epoch(reshape.admitted),
        drain_by: reshape.drain_by.map(Epoch),
    };
    match reshape.kind {
        Kind::Split => PendingReshape::Split {
            cohort: keyed(&reshape.seats, ValidatorId, |_, seat| CohortSeat {
                child: ShardId(seat.child),
                ready: seat.ready,
            }),
            cohort_seed: SEED,
            admitted,
            quiet: reshape.quiet[0],
            scheduled: reshape.scheduled.map(|terminal| ScheduledSplit {
                terminal: Epoch(terminal),
                halves: BTreeMap::from([
                    (left, to_committee(&reshape.halves[0]).members),
                    (right, to_committee(&reshape.halves[1]).members),
                ]),
            }),
        },
        Kind::Merge => PendingReshape::Merge {
            keepers: keyed(&reshape.seats, ValidatorId, |_, seat| KeeperSeat {
                child: ShardId(seat.child),
                ready: seat.ready,
            }),
            admitted: Some(admitted),
            halves: [left, right]
                .into_iter()
                .zip(reshape.quiet.map(|quiet| MergeHalf { quiet }))
                .collect(),
            scheduled_terminal: reshape.scheduled.map(Epoch),
        },
    }
}

#[must_use]
pub fn from_state(state: &BeaconState) -> Board {
    let mut board = Board::empty(from_config(state));
    for (id, record) in &state.validators {
        board.machines.insert(id.0, from_status(record.status));
    }
    for (shard, committee) in &state.next_shard_committees {
        board.committees.insert(shard.0, ids(&committee.members));
    }
    for (shard, row) in &state.boundaries {
        board.boundaries.insert(shard.0, from_boundary(row));
    }
    for (shard, there) in &state.pending_rotations {
        for (victim, row) in there {
            let rotation = Rotation {
                entrant: row.entrant.0,
                opened: row.opened_at.0,
            };
            board.rotations.insert((shard.0, victim.0), rotation);
        }
    }
    for (target, reshape) in &state.pending_reshapes {
        board.reshapes.insert(target.0, from_reshape(reshape));
    }
    board
}

fn from_config(state: &BeaconState) -> Settings {
    let config = state.chain_config;
    Settings {
        epoch: state.current_epoch.0,
        size: u64::from(config.shard_size),
        drain: config.drain_epochs,
        wait: config.ready_wait,
        interval: config.shuffle_interval,
        most: config.most_in_flight,
    }
}

fn from_status(status: ValidatorStatus) -> Place {
    match status {
        ValidatorStatus::Pooled => Place::Pooled,
        ValidatorStatus::OnShard {
            shard,
            ready,
            placed_at_epoch,
        } => Place::Seated {
            shard: shard.0,
            ready,
            stamp: placed_at_epoch.0,
        },
        ValidatorStatus::Observing {
            shard,
            placed_at_epoch,
        } => Place::Observing {
            shard: shard.0,
            stamp: placed_at_epoch.0,
        },
        ValidatorStatus::InsufficientStake => Place::Short,
        ValidatorStatus::Other(mark) => Place::Other(u64::from(mark)),
    }
}

fn from_boundary(row: &ShardBoundary) -> Boundary {
    Boundary {
        height: row.height.0,
        formed: row.formed.0,
        last_live: row.last_live_epoch.0,
        terminal: row.terminal_epoch.map(|epoch| epoch.0),
        admitted: row.reshape_admitted_epoch.map(|epoch| epoch.0),
    }
}

fn ids(members: &[ValidatorId]) -> Vec<u64> {
    members.iter().map(|id| id.0).collect()
}

fn from_reshape(reshape: &PendingReshape) -> Reshape {
    match reshape {
        PendingReshape::Split {
            cohort,
            admitted,
            quiet,
            scheduled,
            ..
        } => Reshape {
            drain_by: admitted.drain_by.map(|epoch| epoch.0),
            scheduled: scheduled.as_ref().map(|split| split.terminal.0),
            quiet: [*quiet, false],
            halves: from_halves(scheduled.as_ref()),
            ..Reshape::admitted(Kind::Split, admitted.at.0, cohort_seats(cohort))
        },
        PendingReshape::Merge {
            keepers,
            admitted,
            halves,
            scheduled_terminal,
        } => {
            let admitted = admitted.expect("every merge here was admitted");
            let quiet: Vec<bool> = halves.values().map(|half| half.quiet).collect();
            Reshape {
                drain_by: admitted.drain_by.map(|epoch| epoch.0),
                scheduled: scheduled_terminal.map(|epoch| epoch.0),
                quiet: [quiet[0], quiet[1]],
                ..Reshape::admitted(Kind::Merge, admitted.at.0, keeper_seats(keepers))
            }
        }
    }
}

fn from_halves(scheduled: Option<&ScheduledSplit>) -> [Vec<u64>; 2] {
    let mut halves = scheduled
        .into_iter()
        .flat_map(|split| split.halves.values());
    [0, 1].map(|_| halves.next().map(|half| ids(half)).unwrap_or_default())
}

fn seat(child: ShardId, ready: bool) -> Seat {
    Seat {
        child: child.0,
        ready,
    }
}

fn cohort_seats(cohort: &BTreeMap<ValidatorId, CohortSeat>) -> BTreeMap<u64, Seat> {
    let rows = cohort.iter();
    rows.map(|(id, s)| (id.0, seat(s.child, s.ready))).collect()
}

pub fn keeper_seats(keepers: &BTreeMap<ValidatorId, KeeperSeat>) -> BTreeMap<u64, Seat> {
    let rows = keepers.iter();
    rows.map(|(id, s)| (id.0, seat(s.child, s.ready))).collect()
}
