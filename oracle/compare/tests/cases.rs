//! C1 to C12 on the original Rust.

use board::Board;
use calls::cases;
use compare::ported;
use plain::{Args, Outcome, Step};

/// Every step of the cases is one of the original's, so its view is all.
fn original_call(board: &Board, step: Step, args: Args, draws: &[u64]) -> (Outcome, Board) {
    let turn = ported(step, args).expect("the cases call ported steps alone");
    let ran = judge::run(board, turn, draws);
    assert!(ran.panic.is_none() && ran.fault.is_none());
    let view = judge::view(board, turn, draws);
    assert_eq!(view.board, ran.board);
    let outcome = Outcome {
        answer: view.answer,
        handled: view.handled,
        used: view.used,
    };
    (outcome, view.board)
}

macro_rules! cases {
    ($($case:ident)*) => {$(
        #[test]
        fn $case() {
            cases::$case(original_call);
        }
    )*};
}

cases!(c1 c2 c3 c4 c5_c6 c7_c8 c9 c10 c11 c12);
