//! A ward's shard is split: read a snapshot, make the calls of some epochs, write the snapshot back.
//!
//! `cargo run --example split`

use roster::{Answer, Board, Outcome, ShardId, ValidatorId};

/// Shard 1 with machines 11 to 14, and 21 to 24 pooled; S=4, epoch 5.
fn ward() -> Vec<u8> {
    let mut words = vec![6, 5, 4, 2, 3, 10, 2];
    words.push(8);
    for id in 11..=14 {
        words.extend([id, 1, 1, 1, 2]); // seated on shard 1, ready, stamped 2
    }
    for id in 21..=24 {
        words.extend([id, 0, 0, 0, 0]); // pooled
    }
    words.extend([1, 1, 4, 11, 12, 13, 14]); // one committee, of shard 1
    words.extend([1, 1, 41, 1, 4, 0, 0, 0, 0]); // its boundary, at height 41
    words.extend([0, 0]); // no rotation, no reshape
    words
        .iter()
        .flat_map(|word: &u64| word.to_le_bytes())
        .collect()
}

fn said(step: &str, outcome: Outcome) -> Result<(), Answer> {
    let Outcome {
        answer,
        handled,
        draws_used,
    } = outcome;
    println!("{step:15} {answer}, {handled} handled, {draws_used} draws used");
    answer.done()
}

fn main() -> Result<(), Answer> {
    let mut board = Board::from_snapshot(&ward())?;
    let shard = ShardId(1);
    said("admit split", board.admit_split(shard))?;
    said("draw cohort", board.draw_cohort(shard, &[0, 0, 0]))?;
    for id in 21..=24 {
        said("mark ready", board.mark_seat_ready(shard, ValidatorId(id)))?;
    }
    said("schedule", board.schedule_splits(&[3, 2, 1]))?;
    said("mark quiet", board.mark_quiet(shard, 0))?;
    said("schedule", board.schedule_splits(&[3, 2, 1]))?;
    said("tick", board.tick())?;
    said("cut", board.cut_splits())?;

    let refused = board.leave(ValidatorId(99), &[]);
    println!("{:15} {}", "leave of 99", refused.answer);
    assert_eq!(refused.answer, Answer::NoRecord);

    println!("{} bytes of snapshot after it", board.snapshot()?.len());
    Ok(())
}
