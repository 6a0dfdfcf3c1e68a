//! The layout that is compared with is the library's, and its own inverse.

use board::read;
use calls::{Rng, any_series, bytes_of};
use proved::{WORDS, pack, unpack};
use roster::{Board, exports};

#[test]
fn snapshots_are_laid_out_as_the_library_reads_them() {
    assert_eq!(exports::words(), WORDS as u64);
    let mut rng = Rng::new(4);
    for _ in 0..300 {
        let start = any_series(&mut rng).start;
        let words = unpack(&start);
        if read(&start).is_some() {
            let read = Board::from_snapshot(&bytes_of(&start)).expect("a well-formed board");
            assert_eq!(words.as_deref(), Some(read.words()));
        }
        if let Some(words) = words {
            assert_eq!(words.len(), WORDS);
            assert_eq!(pack(&words), Some(start));
        }
    }
}

#[test]
fn room_past_a_count_is_zero() {
    let mut words = unpack(&[6, 5, 4, 2, 3, 1, 2, 0, 0, 0, 0, 0]).expect("a snapshot");
    for at in [15, 17, 1_298, 3_649, 4_034, 4_100, 5_860] {
        words[at] = 1;
        assert_eq!(pack(&words), None, "{at}");
        words[at] = 0;
    }
    assert!(pack(&words).is_some());
    assert_eq!(pack(&words[1..]), None);
}
