//! The wrapper over the exports: every step once, snapshots, wrong lengths.

use roster::{
    Answer, Board, Outcome, SNAPSHOT_MOST, Settings, ShardId, Step, ValidatorId, WORDS, exports,
};

fn settings() -> Settings {
    Settings {
        epoch: 5,
        shard_size: 4,
        drain_epochs: 2,
        ready_wait: 3,
        shuffle_interval: 1,
        most_in_flight: 2,
    }
}

/// Document 01's C1 before its admission: shard 1 has 11 to 14, and 21 to 24 are pooled.
fn ward() -> Board {
    let mut words = vec![6, 5, 4, 2, 3, 1, 2, 8];
    (11..=14).for_each(|id| words.extend([id, 1, 1, 1, 2]));
    (21..=24).for_each(|id| words.extend([id, 0, 0, 0, 0]));
    words.extend([1, 1, 4, 11, 12, 13, 14, 1, 1, 41, 1, 4, 0, 0, 0, 0, 0, 0]);
    let bytes: Vec<u8> = words
        .iter()
        .flat_map(|word: &u64| word.to_le_bytes())
        .collect();
    Board::from_snapshot(&bytes).expect("a snapshot")
}

fn done(handled: u64, draws_used: u64) -> Outcome {
    Outcome {
        answer: Answer::Done,
        handled,
        draws_used,
    }
}

fn refused(answer: Answer) -> Outcome {
    Outcome {
        answer,
        handled: 0,
        draws_used: 0,
    }
}

#[test]
fn the_sizes_are_the_library_s() {
    assert_eq!(exports::words(), WORDS as u64);
    assert_eq!(exports::snapshot_most(), SNAPSHOT_MOST as u64);
}

#[test]
fn every_answer_has_its_number() {
    for (number, answer) in Answer::ALL.into_iter().enumerate() {
        assert_eq!(answer.number(), number as u64);
        assert_eq!(Answer::from_number(number as u64), Some(answer));
    }
    assert_eq!(Answer::from_number(14), None);
    assert_eq!(
        Answer::NotASnapshot.to_string(),
        "13: a snapshot isn't a well-formed board's"
    );
}

#[test]
fn a_split_from_its_admission_to_its_cut() {
    let mut board = ward();
    let one = ShardId(1);
    assert_eq!(board.admit_split(one), done(1, 0));
    assert_eq!(board.draw_cohort(one, &[0, 0, 0]), done(4, 3));
    assert_eq!(board.lapse(one), done(4, 0));
    assert_eq!(board.draw_cohort(one, &[0, 0, 0, 9]), done(4, 3));
    for id in 21..=24 {
        assert_eq!(board.mark_seat_ready(one, ValidatorId(id)), done(1, 0));
    }
    assert_eq!(board.schedule_splits(&[3, 2, 1]), done(0, 3));
    assert_eq!(board.mark_quiet(one, 0), done(1, 0));
    assert_eq!(board.mark_quiet(one, 2), refused(Answer::OutOfRange));
    assert_eq!(board.schedule_splits(&[3, 2]), refused(Answer::DrawMissing));
    assert_eq!(board.schedule_splits(&[3, 2, 1]), done(1, 3));
    assert_eq!(board.tick(), done(1, 0));
    assert_eq!(board.cut_splits(), done(1, 0));
    assert!(board.well_formed() && board.seat_check());
}

#[test]
fn a_merge_and_the_steps_on_one_shard() {
    let mut board = ward();
    let one = ShardId(1);
    assert_eq!(board.admit_merge(one, &[]), refused(Answer::FamilyTaken));
    assert_eq!(
        (board.schedule_merges(), board.cut_merges()),
        (done(0, 0), done(0, 0))
    );
    assert_eq!(
        board.rotate(one, ValidatorId(11), &[4]),
        refused(Answer::DrawTooLarge)
    );
    assert_eq!(board.rotate(one, ValidatorId(11), &[3]), done(1, 1));
    (0..3).for_each(|_| assert_eq!(board.tick(), done(1, 0)));
    assert_eq!(board.time_out(), done(1, 0));
    assert_eq!(board.resolve(), done(1, 0));
    assert_eq!(board.leave(ValidatorId(24), &[0]), done(1, 1));
    assert_eq!(
        board.leave(ValidatorId(99), &[0]),
        refused(Answer::NoRecord)
    );
}

#[test]
fn a_snapshot_is_read_and_written_back() {
    let board = ward();
    let bytes = board.snapshot().expect("well-formed");
    assert_eq!(Board::from_snapshot(&bytes).expect("a snapshot"), board);
    assert_eq!(Board::from_snapshot(&bytes[1..]), Err(Answer::NotASnapshot));
    let mut room = vec![7; bytes.len() + 3];
    assert_eq!(board.write(&mut room), Ok(bytes.len()));
    assert_eq!(room[bytes.len()..], [7, 7, 7]);
    assert_eq!(board.write(&mut room[1..bytes.len()]), Err(Answer::NoRoom));
}

/// The board is well-formed all the same.
#[test]
fn a_member_without_a_record_fails_the_seat_check() {
    let mut words = ward().into_words();
    assert_eq!(words[1_300], 11, "the first member");
    words[1_300] = 99;
    let board = Board::over(words);
    assert!(board.well_formed() && !board.seat_check());
}

#[test]
fn words_that_hold_no_board_are_refused_and_kept() {
    let mut words = vec![3; WORDS];
    let mut board = Board::over(&mut words[..]);
    assert!(!board.well_formed());
    assert_eq!(board.tick(), refused(Answer::NotWellFormed));
    assert_eq!(board.snapshot(), Err(Answer::NotWellFormed));
    assert_eq!(words, vec![3; WORDS]);
    let mut short = Board::new(settings()).into_words().into_vec();
    short.pop();
    assert_eq!(
        Board::over(&mut short[..]).tick(),
        refused(Answer::NotWellFormed)
    );
    assert_eq!(
        Board::over(&mut short[..]).read(&[]),
        Err(Answer::NotASnapshot)
    );
}

#[test]
fn a_step_from_snapshot_to_snapshot_is_read_step_and_write() {
    let before = ward().snapshot().expect("a snapshot");
    let one = ShardId(1);
    let mut board = ward();
    let steps = [
        (Step::AdmitSplit(one), board.admit_split(one)),
        (
            Step::DrawCohort(one, &[0, 0]),
            board.draw_cohort(one, &[0, 0]),
        ),
        (
            Step::DrawCohort(one, &[0, 0, 0]),
            board.draw_cohort(one, &[0, 0, 0]),
        ),
        (
            Step::Leave(ValidatorId(22), &[]),
            board.leave(ValidatorId(22), &[]),
        ),
        (Step::Tick, board.tick()),
    ];
    let mut room = Board::over(vec![7; WORDS + 1]);
    let mut snapshot = before;
    for (step, outcome) in steps {
        let mut after = vec![9; SNAPSHOT_MOST];
        let applied = room.apply(&snapshot, step, &mut after).expect("a snapshot");
        assert_eq!(applied.outcome, outcome, "{step:?}");
        assert!(after[applied.length..].iter().all(|byte| *byte == 9));
        after.truncate(applied.length);
        snapshot = after;
    }
    assert_eq!(snapshot, board.snapshot().expect("a snapshot"));
    assert_eq!(room.words()[..WORDS], *board.words());
    assert_eq!(room.words()[WORDS], 7);
}

#[test]
fn a_refused_apply_writes_nothing() {
    let bytes = ward().snapshot().expect("a snapshot");
    let mut after = vec![9; SNAPSHOT_MOST];
    let mut room = Board::over(vec![7; WORDS]);
    let odd = &bytes[1..];
    assert_eq!(
        room.apply(odd, Step::Tick, &mut after),
        Err(Answer::NotASnapshot)
    );
    assert_eq!(
        room.apply(&bytes, Step::Tick, &mut after[1..]),
        Err(Answer::NoRoom)
    );
    let mut short = Board::over(vec![7; WORDS - 1]);
    assert_eq!(
        short.apply(&bytes, Step::Tick, &mut after),
        Err(Answer::NoRoom)
    );
    for number in [0, 16, u64::MAX] {
        let mut results = [5; 3];
        let mut words = vec![7; WORDS];
        let answer = exports::apply(
            &bytes,
            number,
            1,
            1,
            &[],
            &mut words,
            &mut after,
            &mut results,
        );
        assert_eq!((answer, results), (15, [5; 3]));
        assert!(words.iter().all(|word| *word == 7));
    }
    assert!(room.words().iter().all(|word| *word == 7));
    assert!(after.iter().all(|byte| *byte == 9));
}
