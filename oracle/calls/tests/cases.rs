//! C1 to C12 on the plain reading.

use board::Board;
use calls::cases;
use plain::{Args, Outcome, Step};

fn plain_call(board: &Board, step: Step, args: Args, draws: &[u64]) -> (Outcome, Board) {
    let done = plain::run(board, step, args, draws, None);
    (done.outcome, done.board)
}

macro_rules! cases {
    ($($case:ident)*) => {$(
        #[test]
        fn $case() {
            cases::$case(plain_call);
        }
    )*};
}

cases!(c1 c2 c3 c4 c5_c6 c7_c8 c9 c10 c11 c12);
