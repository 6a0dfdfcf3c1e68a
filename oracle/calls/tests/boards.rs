//! Snapshots and the seat check over boards from a seed.

use board::{Board, Place, SNAPSHOT_WORDS, passes, read, structured, write};
use calls::{Kind, Rng, Sizes, bytes_of, make_series};
use plain::Step;

fn sizes(rng: &mut Rng) -> Sizes {
    Sizes {
        size: (4, 32),
        shards: rng.between(1, 5),
        machines: rng.between(12, 256) as usize,
        calls: 100,
    }
}

/// Demand 3's check, over long series of calls, refused ones included.
#[test]
fn passing_boards_go_on_passing() {
    let mut rng = Rng::new(11);
    let mut boards = 0;
    for _ in 0..60 {
        let sizes = sizes(&mut rng);
        let series = make_series(&mut rng, Kind::Passing, sizes);
        let after = series.made.iter().map(|made| &made.after);
        for words in [&series.start].into_iter().chain(after) {
            assert!(passes(&read(words).expect("well-formed")));
            boards += 1;
        }
    }
    assert_eq!(boards, 60 * 101);
}

/// What demand 3 says of one call: a move into a seat or to watching, from the
/// pool or from watching, stamps the epoch; nothing else touches a stamp.
fn stamped(before: Place, after: Place, epoch: u64) -> bool {
    match (before, after) {
        (Place::Seated { stamp: old, .. }, Place::Seated { stamp, .. })
        | (Place::Observing { stamp: old, .. }, Place::Observing { stamp, .. }) => stamp == old,
        (
            Place::Pooled | Place::Observing { .. },
            Place::Seated { stamp, .. } | Place::Observing { stamp, .. },
        ) => stamp == epoch,
        (_, Place::Seated { .. } | Place::Observing { .. }) => false,
        _ => true,
    }
}

#[test]
fn stamps_are_of_the_last_seating() {
    let mut rng = Rng::new(16);
    let mut seatings = 0;
    for _ in 0..60 {
        let sizes = sizes(&mut rng);
        let series = make_series(&mut rng, Kind::Passing, sizes);
        let mut before = read(&series.start).expect("well-formed");
        for made in &series.made {
            let after = read(&made.after).expect("well-formed");
            for (id, place) in &after.machines {
                let old = before.machines[id];
                assert!(
                    stamped(old, *place, after.settings.epoch),
                    "{:?}",
                    made.call
                );
                seatings += u64::from(old == Place::Pooled && *place != Place::Pooled);
            }
            before = after;
        }
    }
    assert!(seatings > 500, "{seatings}");
}

/// Demand 3's lapse, on boards that pass the check.
#[test]
fn a_lapse_pools_the_cohort_and_changes_nothing_more() {
    let mut rng = Rng::new(17);
    let mut pooled = 0;
    for _ in 0..150 {
        let sizes = sizes(&mut rng);
        let series = make_series(&mut rng, Kind::Passing, sizes);
        let mut before = &series.start;
        for made in &series.made {
            if made.call.step == Step::Lapse && made.outcome.answer == 0 {
                let mut expected = read(before).expect("well-formed");
                lapse(&mut expected, made.call.args.shard);
                assert_eq!(write(&expected), made.after);
                pooled += made.outcome.handled;
            }
            before = &made.after;
        }
    }
    assert!(pooled > 100, "{pooled}");
}

fn lapse(board: &mut Board, target: u64) {
    let split = board.reshapes.get_mut(&target).expect("a split");
    let cohort = std::mem::take(&mut split.seats);
    let committee = board.committees.get_mut(&target).expect("a committee");
    committee.retain(|id| !cohort.contains_key(id));
    board
        .machines
        .extend(cohort.keys().map(|id| (*id, Place::Pooled)));
}

#[test]
fn disturbed_boards_are_mostly_off_the_check() {
    let mut rng = Rng::new(12);
    let mut off = 0;
    for _ in 0..100 {
        let sizes = sizes(&mut rng);
        let series = make_series(&mut rng, Kind::Disturbed, sizes);
        let board = read(&series.start).expect("well-formed");
        off += u64::from(!passes(&board));
    }
    assert!(off > 60, "{off} of 100");
}

#[test]
fn snapshots_read_back() {
    let mut rng = Rng::new(13);
    for kind in [Kind::Passing, Kind::Disturbed, Kind::Limits] {
        for _ in 0..20 {
            let sizes = sizes(&mut rng);
            let series = make_series(&mut rng, kind, sizes);
            for made in &series.made {
                let board = read(&made.after).expect("well-formed");
                assert_eq!(write(&board), made.after);
                assert!(structured(&made.after) && made.after.len() <= SNAPSHOT_WORDS);
                assert!(board.well_formed());
            }
        }
    }
}

#[test]
fn misnumbered_snapshots_keep_their_structure() {
    let mut rng = Rng::new(14);
    for _ in 0..200 {
        let sizes = sizes(&mut rng);
        let series = make_series(&mut rng, Kind::Misnumbered, sizes);
        assert!(structured(&series.start) && read(&series.start).is_none());
        for made in &series.made {
            assert!([1, 13].contains(&made.outcome.answer));
            assert_eq!(made.after, series.start);
        }
    }
}

#[test]
fn broken_snapshots_are_refused() {
    let mut rng = Rng::new(15);
    let mut cut = 0;
    for _ in 0..200 {
        let sizes = sizes(&mut rng);
        let series = make_series(&mut rng, Kind::Broken, sizes);
        assert_eq!(series.bytes.div_ceil(8), series.start.len() as u64);
        let bytes = bytes_of(&series.start);
        assert!(board::read_bytes(&bytes[..series.bytes as usize]).is_none());
        cut += u64::from(!series.bytes.is_multiple_of(8));
    }
    assert!(cut > 0);
}
