//! The recorded calls: made anew, run, and what they tell apart.

use board::{read, write};
use calls::recorded::{Recorded, count, decode, encode, recorded_series};
use calls::{Call, Reached, Series};
use plain::Slip;

fn file() -> Vec<u8> {
    let path = concat!(
        env!("CARGO_MANIFEST_DIR"),
        "/../../crates/replay/data/calls.bin"
    );
    std::fs::read(path).expect("crates/replay/data/calls.bin is in the repository")
}

fn replayed() -> Vec<Series> {
    let all = decode(&file()).expect("the form of docs/RECORDED.md");
    let replay = |recorded: &Recorded| recorded.replay().expect("the plain reading agrees");
    all.iter().map(replay).collect()
}

#[test]
fn the_file_is_made_anew_byte_for_byte() {
    assert!(encode(&recorded_series(2)) == file());
}

#[test]
fn every_pair_and_every_limit_is_in_it() {
    let all = replayed();
    let table = count(&all);
    assert_eq!(table.faults(), Vec::<String>::new());
    assert!(table.total() > 19_000);
    let mut reached = Reached::default();
    for series in &all {
        read(&series.start)
            .iter()
            .for_each(|board| reached.count(board));
    }
    assert!(reached.all(), "{reached}");
    assert!(file().len() <= 4_000_000);
}

/// Whether a call of the series tells the slip apart.
fn told(series: &Series, slip: Slip) -> bool {
    let mut before = &series.start;
    for made in &series.made {
        let Call { step, args, draws } = &made.call;
        if let Some(board) = read(before)
            && *step != plain::Step::Read
        {
            let done = plain::run(&board, *step, *args, draws, Some(slip));
            if done.outcome != made.outcome || write(&done.board) != made.after {
                return true;
            }
        }
        before = &made.after;
    }
    false
}

#[test]
fn every_slip_is_told_apart() {
    let all = replayed();
    for slip in Slip::ALL {
        assert!(all.iter().any(|series| told(series, slip)), "{slip:?}");
    }
}

/// Each of a line's numbers, and the end, is held against the reading.
#[test]
fn a_changed_number_is_told_apart() {
    let all = decode(&file()).expect("the form of docs/RECORDED.md");
    let edits: [fn(&mut Recorded); 5] = [
        |one| one.lines[0].outcome.answer += 1,
        |one| one.lines[0].outcome.handled += 1,
        |one| one.lines[0].outcome.used += 1,
        |one| one.lines[0].checksum ^= 1,
        |one| one.end.push(0),
    ];
    for one in all.iter().step_by(10) {
        for edit in edits {
            let mut changed = one.clone();
            edit(&mut changed);
            assert!(one.replay().is_ok() && changed.replay().is_err());
        }
    }
}
