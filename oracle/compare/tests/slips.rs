//! A plain reading with a slip in it is told apart by the original itself.

use board::{read, write};
use calls::{Call, Kind, Made, Rng, Series, Sizes, make_series};
use compare::against_rust;
use plain::{Slip, Step};

/// Whether the original contradicts the slip on one of the series' calls.
fn told(series: &Series, slip: Slip) -> bool {
    let mut before = &series.start;
    for made in &series.made {
        let Call { step, args, draws } = &made.call;
        if let Some(board) = read(before)
            && *step != Step::Read
        {
            let done = plain::run(&board, *step, *args, draws, Some(slip));
            let slipped = Made {
                call: made.call.clone(),
                outcome: done.outcome,
                after: write(&done.board),
            };
            if against_rust(before, &slipped).is_err() {
                return true;
            }
        }
        before = &made.after;
    }
    false
}

fn next_series(rng: &mut Rng) -> Series {
    let sizes = Sizes {
        size: (4, 9),
        shards: 3,
        machines: 60,
        calls: 100,
    };
    let kind = if rng.chance(50) {
        Kind::Passing
    } else {
        Kind::Disturbed
    };
    make_series(rng, kind, sizes)
}

#[test]
fn the_original_tells_every_slip_apart() {
    for slip in Slip::ALL {
        let mut rng = Rng::new(21);
        let told = (0..400).any(|_| told(&next_series(&mut rng), slip));
        assert!(told, "{slip:?}");
    }
}

/// The comparison itself is no rubber stamp: without a slip it never objects.
#[test]
fn without_a_slip_nothing_is_told() {
    let mut rng = Rng::new(21);
    for _ in 0..100 {
        let series = next_series(&mut rng);
        let mut before = &series.start;
        for made in &series.made {
            assert!(against_rust(before, made).is_ok());
            before = &made.after;
        }
    }
}
