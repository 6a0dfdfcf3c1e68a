//! C1 to C12 by the proved library.

use board::{Board, read, write};
use calls::{Call, bytes_of, cases};
use plain::{Args, Outcome, Step};
use proved::{Library, Subject};

fn library_call(board: &Board, step: Step, args: Args, draws: &[u64]) -> (Outcome, Board) {
    let call = Call {
        step,
        args,
        draws: draws.to_vec(),
    };
    let snapshot = bytes_of(&write(board));
    let mut words = roster::Board::from_snapshot(&snapshot).expect("a well-formed board");
    let outcome = Library.again(&call, &mut words);
    let after = words.snapshot().expect("a well-formed board");
    let (chunks, _) = after.as_chunks::<8>();
    let after: Vec<u64> = chunks
        .iter()
        .map(|word| u64::from_le_bytes(*word))
        .collect();
    (outcome, read(&after).expect("a well-formed board"))
}

macro_rules! cases {
    ($($case:ident)*) => {$(
        #[test]
        fn $case() {
            cases::$case(library_call);
        }
    )*};
}

cases!(c1 c2 c3 c4 c5_c6 c7_c8 c9 c10 c11 c12);
