//! The comparison is no rubber stamp: a library with a fault in it is told,
//! and the call that tells it is brought down to a small one.

use calls::{Call, Rng, any_series};
use plain::{Outcome, Step};
use proved::{Case, Checker, Lent, Library, Loan, Round, Run, Subject, reproduction, smallest};
use roster::Board;

#[derive(Clone, Copy, Debug, PartialEq, Eq)]
enum Fault {
    /// A word of the board after a leave.
    Word,
    /// A word past every count.
    Room,
    /// The answer, the count handled and the draws used.
    Answer,
    Handled,
    Used,
    /// A word past the board, before it, among the draws, past the results.
    PastBoard,
    BeforeBoard,
    Draws,
    PastResults,
    /// A refusal that writes.
    RefusalWrites,
    /// Another board every second time.
    TwiceDiffers,
    /// The check, and the seat check, that say yes.
    AlwaysFormed,
    AlwaysSeated,
    /// A byte of the snapshot, one past it, its length.
    Byte,
    PastSnapshot,
    Length,
    /// A board read.
    ReadWord,
    /// Of the one call: a word, a byte, the length, a refusal that writes.
    AppliedWord,
    AppliedByte,
    AppliedLength,
    AppliedRefusal,
}

const FAULTS: [Fault; 21] = [
    Fault::Word,
    Fault::Room,
    Fault::Answer,
    Fault::Handled,
    Fault::Used,
    Fault::PastBoard,
    Fault::BeforeBoard,
    Fault::Draws,
    Fault::PastResults,
    Fault::RefusalWrites,
    Fault::TwiceDiffers,
    Fault::AlwaysFormed,
    Fault::AlwaysSeated,
    Fault::Byte,
    Fault::PastSnapshot,
    Fault::Length,
    Fault::ReadWord,
    Fault::AppliedWord,
    Fault::AppliedByte,
    Fault::AppliedLength,
    Fault::AppliedRefusal,
];

struct Faulty(Option<Fault>);

impl Faulty {
    fn has(&self, fault: Fault) -> bool {
        self.0 == Some(fault)
    }
}

fn bump<T: Copy>(word: Option<&mut T>, by: impl Fn(T) -> T) {
    if let Some(word) = word {
        *word = by(*word);
    }
}

impl Subject for Faulty {
    fn step(&mut self, call: &Call, loan: &mut Loan) -> u64 {
        let answer = Library.step(call, loan);
        let up = |word: u64| word.wrapping_add(1);
        let past = loan.board.inner().len() + 16;
        match self.0 {
            Some(Fault::Word) if call.step == Step::Leave && answer == 0 => {
                bump(loan.board.inner_mut().get_mut(17), up);
            }
            Some(Fault::Room) if call.step == Step::Lapse && answer == 0 => {
                bump(loan.board.inner_mut().last_mut(), up);
            }
            Some(Fault::Answer) if call.step == Step::Rotate && answer == 8 => return 0,
            Some(Fault::Handled) if call.step == Step::CutMerges => {
                bump(loan.results.inner_mut().first_mut(), up);
            }
            Some(Fault::Used) if answer == 9 => bump(loan.results.inner_mut().last_mut(), up),
            Some(Fault::PastBoard) => bump(loan.board.all_mut().get_mut(past), up),
            Some(Fault::BeforeBoard) => bump(loan.board.all_mut().get_mut(15), up),
            Some(Fault::Draws) => bump(loan.draws.inner_mut().first_mut(), up),
            Some(Fault::PastResults) => bump(loan.results.all_mut().get_mut(18), up),
            Some(Fault::RefusalWrites) if answer == 1 => {
                bump(loan.board.inner_mut().get_mut(3), up);
            }
            _ => {}
        }
        answer
    }

    fn again(&mut self, call: &Call, board: &mut Board) -> Outcome {
        let mut outcome = Library.again(call, board);
        if self.has(Fault::TwiceDiffers) && call.step == Step::TimeOut {
            outcome.handled += 1;
        }
        outcome
    }

    fn well_formed(&mut self, board: &[u64]) -> u64 {
        if self.has(Fault::AlwaysFormed) {
            return 1;
        }
        Library.well_formed(board)
    }

    fn seat_check(&mut self, board: &[u64]) -> u64 {
        if self.has(Fault::AlwaysSeated) {
            return 1;
        }
        Library.seat_check(board)
    }

    fn read(&mut self, snapshot: &mut Lent<u8>, board: &mut Lent<u64>) -> u64 {
        let answer = Library.read(snapshot, board);
        if self.has(Fault::ReadWord) {
            bump(board.inner_mut().get_mut(1), |word| word ^ 1);
        }
        answer
    }

    fn write(&mut self, board: &[u64], snapshot: &mut Lent<u8>, length: &mut Lent<u64>) -> u64 {
        let answer = Library.write(board, snapshot, length);
        let past = snapshot.inner().len() + 16;
        match self.0 {
            Some(Fault::Byte) => bump(snapshot.inner_mut().first_mut(), |byte| byte ^ 1),
            Some(Fault::PastSnapshot) => bump(snapshot.all_mut().get_mut(past), |byte| byte ^ 1),
            Some(Fault::Length) => bump(length.inner_mut().first_mut(), |word| word ^ 8),
            _ => {}
        }
        answer
    }

    fn apply(&mut self, number: u64, call: &Call, round: &mut Round) -> u64 {
        let answer = Library.apply(number, call, round);
        let done = answer == 0 && call.step == Step::Leave;
        match self.0 {
            Some(Fault::AppliedWord) if done => {
                bump(round.board.inner_mut().get_mut(17), |word| word ^ 1);
            }
            Some(Fault::AppliedByte) if done => {
                bump(round.after.inner_mut().last_mut(), |byte| byte ^ 1);
            }
            Some(Fault::AppliedLength) if done => {
                bump(round.results.inner_mut().last_mut(), |word| word ^ 8);
            }
            Some(Fault::AppliedRefusal) if answer == 13 => {
                bump(round.board.inner_mut().first_mut(), |word| word ^ 1);
            }
            _ => {}
        }
        answer
    }
}

#[test]
fn every_fault_is_told() {
    for fault in FAULTS {
        let mut run = Run::new(Faulty(Some(fault)));
        for seed in 0..20 {
            run.take(run.same() + run.differences + 500, seed);
            if run.differences > 0 {
                break;
            }
        }
        assert!(run.differences > 0, "{fault:?}");
        assert!(!run.reports.is_empty(), "{fault:?}");
    }
}

#[test]
fn without_a_fault_nothing_is_told() {
    let mut run = Run::new(Faulty(None));
    run.take(2_000, 5);
    assert_eq!(run.differences, 0);
}

/// The first call of a long series that differs.
fn differing(checker: &mut Checker<Faulty>) -> Case {
    let mut rng = Rng::new(8);
    loop {
        let series = any_series(&mut rng);
        let mut before = &series.start;
        for made in &series.made {
            let case = Case::new(before, &made.call);
            if series.bytes.is_multiple_of(8) && checker.check(&case).is_err() {
                return case;
            }
            before = &made.after;
        }
    }
}

/// A guard that was written over stands again for the next call.
#[test]
fn a_fault_leaves_no_trace() {
    for fault in FAULTS {
        let mut checker = Checker::new(Faulty(Some(fault)));
        let case = differing(&mut checker);
        checker.subject.0 = None;
        assert!(checker.check(&case).is_ok(), "{fault:?}");
    }
}

/// A leave needs one machine, and a cut of no merge needs nothing.
#[test]
fn a_difference_is_brought_down() {
    for (fault, words, code) in [(Fault::Word, 17, 12), (Fault::Handled, 12, 11)] {
        let mut checker = Checker::new(Faulty(Some(fault)));
        let case = differing(&mut checker);
        let (least, why) = smallest(&mut checker, &case);
        assert_eq!(least.before.len(), words, "{least:?}");
        let text = reproduction(&least, &why);
        let recorded = text.lines().nth(1).expect("the recorded call");
        assert!(recorded.starts_with(&format!("call {code} (")), "{text}");
    }
}
