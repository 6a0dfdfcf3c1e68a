//! Times the proved library beside the original Rust, and prints the tables
//! of docs/SPEED.md; or, by `speed WHAT BOARD TURNS`, does one thing again and
//! again for a profiler to look at.

mod added;
mod boards;
mod clock;
mod depths;
mod library;
mod maps;
mod snapshot;
mod stack;
mod tables;

use std::env;
use std::hint::black_box;

use boards::{SHAPES, base, situation, worst};
use library::Room;
use plain::Step;

fn main() {
    let args: Vec<String> = env::args().skip(1).collect();
    if let [what, shape, turns] = &args[..] {
        spin(what, number(shape), number(turns));
        return;
    }
    tables::print();
    depths::print();
}

/// The check, a read, a write, a tick from snapshot to snapshot, or the step of a code.
fn spin(what: &str, shape: usize, turns: usize) {
    let board = SHAPES.get(shape).map_or_else(worst, |shape| base(*shape));
    let mut room = Room::of(&board);
    let act = match what {
        "check" => Room::check,
        "read" => Room::read,
        "write" => Room::write,
        "round" => return spin_round(shape, turns),
        code => return spin_step(code, shape, turns),
    };
    (0..turns).for_each(|_| act(&mut room));
}

fn spin_round(shape: usize, turns: usize) {
    let at = situation(SHAPES[shape], Step::Tick);
    let mut room = Room::of(&at.board);
    (0..turns).for_each(|_| room.round(&at.call));
}

fn spin_step(code: &str, shape: usize, turns: usize) {
    let step = Step::from_code(number(code) as u64).expect("a step's code");
    let at = situation(SHAPES[shape], step);
    let template = library::words(&at.board);
    let mut words = template.clone();
    for _ in 0..turns {
        words.copy_from_slice(&template);
        black_box(library::act(&mut words, &at.call));
    }
}

fn number(arg: &str) -> usize {
    arg.parse().expect("a number")
}
