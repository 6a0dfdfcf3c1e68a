//! Times of single calls, each on a board made anew for it.

use std::hint::black_box;
use std::time::Instant;

/// How many rounds each figure has. The rounds of all figures take turns: a
/// while in which the machine has other work falls on some rounds of each.
const ROUNDS: usize = 45;

/// Of a row's rounds so many count, those in which its calls took least.
const QUIET: usize = 15;

/// How many calls a round has.
const CALLS: usize = 400;

/// In how many places of memory each figure has its state, a round in each in turn.
const PLACES: usize = 15;

/// The time of a call in one round, in nanoseconds.
pub type Figure = Box<dyn FnMut() -> f64>;

/// One call after another on what `fresh` makes, in nanoseconds; the clock's
/// own time is in it.
fn sample<T>(state: &mut T, fresh: &mut impl FnMut(&mut T), act: &mut impl FnMut(&mut T)) -> f64 {
    fresh(state);
    let state = black_box(state);
    let start = Instant::now();
    act(state);
    black_box(&mut *state);
    start.elapsed().as_nanos() as f64
}

/// The mean of the middle half, so that neither an interrupt nor the clock's
/// own grain shows.
fn middle(mut times: Vec<f64>) -> f64 {
    times.sort_by(f64::total_cmp);
    let half = &times[times.len() / 4..3 * times.len() / 4];
    half.iter().sum::<f64>() / half.len() as f64
}

/// The time of `act`, without the clock's.
pub fn time<T: Clone + 'static>(
    state: T,
    fresh: impl FnMut(&mut T) + 'static,
    act: impl FnMut(&mut T) + 'static,
) -> Figure {
    over(state, fresh, act, |_| ())
}

/// By how much `act` takes longer than `part`, the two in turn.
pub fn over<T: Clone + 'static>(
    state: T,
    mut fresh: impl FnMut(&mut T) + 'static,
    mut act: impl FnMut(&mut T) + 'static,
    mut part: impl FnMut(&mut T) + 'static,
) -> Figure {
    // each round has another place in memory and a depth of its own: where a board and a frame happen to lie is worth some nanoseconds
    let mut states = vec![state; PLACES];
    let mut rounds = 0;
    Box::new(move || {
        let state = &mut states[rounds % PLACES];
        rounds += 1;
        deeper(rounds, &mut || {
            // of two calls in turn the first takes longer, whichever it is: so each is first every other time
            let one = |turn| match turn % 2 {
                0 => {
                    let whole = sample(state, &mut fresh, &mut act);
                    whole - sample(state, &mut fresh, &mut part)
                }
                _ => {
                    let less = sample(state, &mut fresh, &mut part);
                    sample(state, &mut fresh, &mut act) - less
                }
            };
            middle((0..CALLS).map(one).collect())
        })
    })
}

/// What `figure` tells so many frames deeper in the stack.
fn deeper(frames: usize, figure: &mut dyn FnMut() -> f64) -> f64 {
    let room = black_box([0_u64; 9]);
    let time = match frames {
        0 => figure(),
        _ => deeper(frames - 1, figure),
    };
    black_box(&room);
    time
}

/// The figures of each row: of its quiet rounds the middle one.
pub fn measure(mut rows: Vec<Vec<Figure>>) -> Vec<Vec<f64>> {
    let mut seen = vec![Vec::new(); rows.len()];
    for _ in 0..ROUNDS {
        for (row, rounds) in rows.iter_mut().zip(&mut seen) {
            rounds.push(row.iter_mut().map(|figure| figure()).collect());
        }
    }
    seen.into_iter().map(quiet_middle).collect()
}

fn quiet_middle(mut rounds: Vec<Vec<f64>>) -> Vec<f64> {
    let total = |round: &Vec<f64>| round.iter().sum::<f64>();
    rounds.sort_by(|a, b| total(a).total_cmp(&total(b)));
    rounds.truncate(QUIET);
    let middle_of = |figure: usize| {
        let mut times: Vec<f64> = rounds.iter().map(|round| round[figure]).collect();
        times.sort_by(f64::total_cmp);
        times[QUIET / 2]
    };
    (0..rounds[0].len()).map(middle_of).collect()
}
