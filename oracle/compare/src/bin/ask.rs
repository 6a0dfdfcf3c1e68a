//! One call: `ask STEP SHARD MACHINE SIDE [DRAW ..]`, the snapshot's bytes on
//! standard input. Prints what the original did, document 01's view of it,
//! and the plain reading's outcome.

use std::env;
use std::io::{self, Read};
use std::process::ExitCode;

use board::{Board, read_bytes, write};
use compare::{added, ported};
use judge::{Panic, Ran, View};
use plain::{Args, Outcome, Step};

fn main() -> ExitCode {
    let numbers: Option<Vec<u64>> = env::args().skip(1).map(|arg| arg.parse().ok()).collect();
    let (step, args, draws) = match numbers.as_deref() {
        Some([code, shard, machine, side, draws @ ..]) => {
            let args = Args {
                shard: *shard,
                machine: *machine,
                side: *side,
            };
            (Step::from_code(*code), args, draws.to_vec())
        }
        _ => (None, Args::default(), Vec::new()),
    };
    let Some(step) = step.filter(|step| *step != Step::Read) else {
        eprintln!("usage: ask STEP SHARD MACHINE SIDE [DRAW ..] < SNAPSHOT (steps 1 to 15)");
        return ExitCode::from(2);
    };
    let mut bytes = Vec::new();
    let taken = io::stdin().read_to_end(&mut bytes);
    let Some(board) = taken.ok().and_then(|_| read_bytes(&bytes)) else {
        eprintln!("the snapshot is not a well-formed board's");
        return ExitCode::FAILURE;
    };
    ask(&board, step, args, &draws);
    ExitCode::SUCCESS
}

fn ask(board: &Board, step: Step, args: Args, draws: &[u64]) {
    let done = plain::run(board, step, args, draws, None);
    match ported(step, args) {
        None => println!("the original has no such step"),
        Some(_) if done.outcome.answer == 3 => println!("the original is not asked"),
        Some(turn) => {
            say_ran(&judge::run(board, turn, draws));
            if !added(step, done.outcome.answer) {
                say_view(&judge::view(board, turn, draws));
            }
        }
    }
    println!("the plain reading: {}", said(done.outcome, &done.board));
}

fn say_view(view: &View) {
    let outcome = Outcome {
        answer: view.answer,
        handled: view.handled,
        used: view.used,
    };
    println!("document 01's view: {}", said(outcome, &view.board));
}

fn say_ran(ran: &Ran) {
    match (&ran.panic, &ran.fault) {
        (Some(panic), _) => {
            let Panic {
                file,
                line,
                message,
            } = panic;
            println!("the original stopped at {file}:{line}: {message}");
        }
        (None, Some(fault)) => println!("the original stopped for a draw: {fault:?}"),
        (None, None) => println!("the original finished"),
    }
    println!("draws used {}, board {:?}", ran.used, write(&ran.board));
}

fn said(outcome: Outcome, board: &Board) -> String {
    let Outcome {
        answer,
        handled,
        used,
    } = outcome;
    let words = write(board);
    format!("answer {answer}, handled {handled}, draws used {used}, board {words:?}")
}
