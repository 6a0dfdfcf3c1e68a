//! Well-formed, rule by rule: the last number in range and the first out of it.

use board::{Board, Boundary, Kind, Place, Reshape, Rotation, SNAPSHOT_WORDS, Seat, read, write};
use calls::cases::{boundary, merge_board, split_board};

fn holds(well_formed: bool, edit: impl Fn(&mut Board)) {
    let mut board = split_board(4);
    edit(&mut board);
    assert_eq!(read(&write(&board)).is_some(), well_formed);
}

/// In range up to the largest number, and no further.
fn at_most(largest: u64, edit: impl Fn(&mut Board, u64)) {
    holds(true, |board| edit(board, largest));
    holds(false, |board| edit(board, largest + 1));
}

fn at_least(smallest: u64, edit: impl Fn(&mut Board, u64)) {
    holds(true, |board| edit(board, smallest));
    holds(false, |board| edit(board, smallest - 1));
}

fn with_split(board: &mut Board, edit: impl Fn(&mut Reshape)) {
    board.reshapes.entry(1).and_modify(edit);
}

const EPOCHS: u64 = 8_589_934_591;

#[test]
fn settings() {
    at_most(4_294_967_295, |b, n| b.settings.epoch = n);
    at_most(32, |b, n| b.settings.size = n);
    at_least(4, |b, n| b.settings.size = n);
    at_most(1_000_000, |b, n| b.settings.drain = n);
    at_most(1_000_000, |b, n| b.settings.wait = n);
    at_most(1_000_000, |b, n| b.settings.interval = n);
    at_least(1, |b, n| b.settings.interval = n);
    at_most(48, |b, n| b.settings.most = n);
}

fn place(board: &mut Board, place: Place) {
    board.machines.insert(u64::MAX, place);
}

fn seated(shard: u64, stamp: u64) -> Place {
    Place::Seated {
        shard,
        ready: true,
        stamp,
    }
}

#[test]
fn machines() {
    at_most(65_535, |b, n| place(b, seated(n, 0)));
    at_least(1, |b, n| place(b, seated(n, 0)));
    at_most(EPOCHS, |b, n| place(b, seated(1, n)));
    at_most(65_535, |b, shard| {
        place(b, Place::Observing { shard, stamp: 0 })
    });
    at_most(EPOCHS, |b, stamp| {
        place(b, Place::Observing { shard: 1, stamp })
    });
    at_most(255, |b, mark| place(b, Place::Other(mark)));
    at_least(1, |b, mark| place(b, Place::Other(mark)));
    let fill = |b: &mut Board, n: u64| {
        b.machines = (0..n).map(|id| (id, Place::Pooled)).collect();
    };
    at_most(256, fill);
}

#[test]
fn committees_and_rotations() {
    at_most(65_535, |b, n| {
        b.committees.insert(n, Vec::new());
    });
    at_most(96, |b, n| {
        b.committees.insert(1, (0..n).collect());
    });
    at_most(24, |b, n| {
        b.committees = (1..=n).map(|shard| (shard, Vec::new())).collect();
    });
    holds(false, |b| {
        b.committees.insert(1, vec![7, 8, 7]);
    });
    let row = |opened| Rotation { entrant: 7, opened };
    at_most(48, |b, n| {
        b.rotations.extend((0..n).map(|id| ((1, id), row(0))))
    });
    at_most(EPOCHS, |b, n| b.rotations.extend([((1, 7), row(n))]));
    at_most(65_535, |b, n| b.rotations.extend([((n, 7), row(0))]));
    at_least(1, |b, n| b.rotations.extend([((n, 7), row(0))]));
}

#[test]
fn boundaries() {
    let put = |b: &mut Board, row: Boundary| b.boundaries.extend([(1, row)]);
    at_most(65_535, |b, n| b.boundaries.extend([(n, boundary(1))]));
    at_most(48, |b, n| {
        b.boundaries = (1..=n).map(|shard| (shard, boundary(1))).collect();
    });
    holds(true, |b| put(b, boundary(u64::MAX)));
    let row = boundary(1);
    at_most(EPOCHS, |b, formed| put(b, Boundary { formed, ..row }));
    at_most(EPOCHS, |b, last_live| put(b, Boundary { last_live, ..row }));
    at_most(EPOCHS, |b, n| {
        let terminal = Some(n);
        put(b, Boundary { terminal, ..row });
    });
    at_most(EPOCHS, |b, n| {
        let admitted = Some(n);
        put(b, Boundary { admitted, ..row });
    });
}

#[test]
fn reshapes() {
    let split = split_board(4).reshapes[&1].clone();
    at_most(32_767, |b, n| b.reshapes.extend([(n, split.clone())]));
    at_least(1, |b, n| b.reshapes.extend([(n, split.clone())]));
    at_most(8, |b, n| {
        b.reshapes = (1..=n).map(|at| (at, split.clone())).collect();
    });
    at_most(EPOCHS, |b, n| with_split(b, |r| r.admitted = n));
    at_most(EPOCHS, |b, n| with_split(b, |r| r.drain_by = Some(n)));
    at_most(EPOCHS, |b, n| with_split(b, |r| r.scheduled = Some(n)));
    holds(true, |b| with_split(b, |r| r.quiet = [true, false]));
    holds(false, |b| with_split(b, |r| r.quiet = [false, true]));
    let mut merge = merge_board(4, 0);
    merge
        .reshapes
        .entry(1)
        .and_modify(|r| r.quiet = [false, true]);
    assert!(merge.well_formed());
}

#[test]
fn seats_and_halves() {
    let seat = |child| Seat { child, ready: true };
    at_most(3, |b, child| {
        with_split(b, |r| r.seats.extend([(7, seat(child))]));
    });
    at_least(2, |b, child| {
        with_split(b, |r| r.seats.extend([(7, seat(child))]));
    });
    at_most(32, |b, n| {
        with_split(b, |r| r.seats.extend((0..n).map(|id| (id, seat(2)))));
    });
    let halves = |left: Vec<u64>, right: Vec<u64>, scheduled: Option<u64>, kind: Kind| {
        move |b: &mut Board| {
            with_split(b, |r| {
                r.kind = kind;
                r.scheduled = scheduled;
                r.halves = [left.clone(), right.clone()];
            });
        }
    };
    holds(true, halves(vec![7, 8], vec![8, 7], Some(6), Kind::Split));
    holds(false, halves(vec![7, 8, 7], vec![], Some(6), Kind::Split));
    holds(false, halves(vec![7], vec![], None, Kind::Split));
    holds(false, halves(vec![], vec![7], Some(6), Kind::Merge));
    holds(
        true,
        halves((0..48).collect(), vec![], Some(6), Kind::Split),
    );
    holds(
        false,
        halves((0..49).collect(), vec![], Some(6), Kind::Split),
    );
}

/// Words that no board's writing gives: unused words, flags and orders.
#[test]
fn words() {
    let good = write(&split_board(4));
    let spoilt = |at: usize, word: u64| {
        let mut words = good.clone();
        words[at] = word;
        read(&words).is_none()
    };
    // Machine 11 is at 8 (id, place, shard, ready, stamp), 21 at 28.
    assert!(spoilt(0, 5) && spoilt(7, 7) && spoilt(8, 12));
    assert!(spoilt(9, 5) && spoilt(11, 2) && spoilt(10, 0));
    for unused in 30..33 {
        assert!(spoilt(unused, 1));
    }
    // Pooled machines moved to each other place keep no unused word.
    assert!(spoilt(29, 1) && spoilt(29, 2) && spoilt(29, 4));
    assert!(!spoilt(29, 3));
    // The boundary's flags and values: four words before the rotations.
    let boundary = 8 + 8 * 5 + 1 + 2 + 4 + 1;
    assert_eq!(good[boundary..boundary + 8], [1, 41, 1, 4, 0, 0, 0, 0]);
    for word in 4..8 {
        assert!(spoilt(boundary + word, 2));
    }
    assert!(spoilt(boundary + 5, 1) && spoilt(boundary + 7, 1));
    assert!(!spoilt(boundary + 4, 1));
}

#[test]
fn the_longest_snapshot() {
    let mut board = split_board(32);
    board.machines = (0..256).map(|id| (id, Place::Pooled)).collect();
    board.committees = (1..=24).map(|shard| (shard, (0..96).collect())).collect();
    board.boundaries = (1..=48).map(|shard| (shard, boundary(1))).collect();
    let rotation = Rotation {
        entrant: 7,
        opened: 5,
    };
    board.rotations = (0..48).map(|id| ((1, id), rotation)).collect();
    for target in 1..=8 {
        let child = 2 * target;
        let seats = (0..32).map(|id| (id, Seat { child, ready: true }));
        let row = Reshape {
            scheduled: Some(6),
            halves: [(0..48).collect(), (48..96).collect()],
            ..Reshape::admitted(Kind::Split, 4, seats.collect())
        };
        board.reshapes.insert(target, row);
    }
    assert!(board.well_formed());
    assert_eq!(write(&board).len(), SNAPSHOT_WORDS);
    assert_eq!(SNAPSHOT_WORDS * 8, 46_816);
}
