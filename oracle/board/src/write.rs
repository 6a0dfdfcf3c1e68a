//! A board's snapshot, and the checksum of one.

use crate::{Board, Kind, Place, Reshape};

/// The snapshot's words, section by section, each after its count.
#[must_use]
pub fn write(board: &Board) -> Vec<u64> {
    let s = &board.settings;
    let mut out = vec![6, s.epoch, s.size, s.drain, s.wait, s.interval, s.most];
    out.push(board.machines.len() as u64);
    for (id, place) in &board.machines {
        out.push(*id);
        out.extend(place_words(*place));
    }
    out.push(board.committees.len() as u64);
    for (shard, members) in &board.committees {
        out.push(*shard);
        put_ids(&mut out, members);
    }
    out.push(board.boundaries.len() as u64);
    for (shard, row) in &board.boundaries {
        out.extend([*shard, row.height, row.formed, row.last_live]);
        out.extend(flagged(row.terminal));
        out.extend(flagged(row.admitted));
    }
    out.push(board.rotations.len() as u64);
    for ((shard, victim), row) in &board.rotations {
        out.extend([*shard, *victim, row.entrant, row.opened]);
    }
    out.push(board.reshapes.len() as u64);
    for (target, reshape) in &board.reshapes {
        put_reshape(&mut out, *target, reshape);
    }
    out
}

fn place_words(place: Place) -> [u64; 4] {
    match place {
        Place::Pooled => [0, 0, 0, 0],
        Place::Seated {
            shard,
            ready,
            stamp,
        } => [1, shard, u64::from(ready), stamp],
        Place::Observing { shard, stamp } => [2, shard, 0, stamp],
        Place::Short => [3, 0, 0, 0],
        Place::Other(mark) => [4, mark, 0, 0],
    }
}

fn flagged(value: Option<u64>) -> [u64; 2] {
    value.map_or([0, 0], |value| [1, value])
}

fn put_ids(out: &mut Vec<u64>, ids: &[u64]) {
    out.push(ids.len() as u64);
    out.extend(ids);
}

fn put_reshape(out: &mut Vec<u64>, target: u64, reshape: &Reshape) {
    let kind = match reshape.kind {
        Kind::Split => 0,
        Kind::Merge => 1,
    };
    out.extend([target, kind, reshape.admitted]);
    out.extend(flagged(reshape.drain_by));
    out.extend(flagged(reshape.scheduled));
    out.extend(reshape.quiet.map(u64::from));
    out.push(reshape.seats.len() as u64);
    for (id, seat) in &reshape.seats {
        out.extend([*id, seat.child, u64::from(seat.ready)]);
    }
    put_ids(out, &reshape.halves[0]);
    put_ids(out, &reshape.halves[1]);
}

/// A snapshot's checksum, as docs/RECORDED.md says it: from the offset
/// 14695981039346656037, each word in turn is joined by exclusive or, then
/// multiplied by 1099511628211, modulo 2^64 (FNV-1a over whole words).
#[must_use]
pub fn checksum(words: &[u64]) -> u64 {
    words.iter().fold(14_695_981_039_346_656_037, |sum, word| {
        (sum ^ word).wrapping_mul(1_099_511_628_211)
    })
}
