//! The tables of docs/SPEED.md but for the stack's.

use std::hint::black_box;
use std::rc::Rc;

use board::{Board, write};
use calls::{Call, bytes_of, step_name};
use plain::Step;
use roster::exports;

use crate::boards::{SHAPES, Shape, Situation, base, growing, situation, worst};
use crate::clock::{Figure, measure, over, time};
use crate::library::Room;
use crate::{library, maps, snapshot};

pub fn print() {
    print_steps();
    print_checks();
    print_growth();
}

pub fn steps() -> impl Iterator<Item = Step> {
    Step::ALL.into_iter().filter(|step| *step != Step::Read)
}

/// The original lacks these.
fn marked(step: Step) -> String {
    let lacks = matches!(
        step,
        Step::Tick | Step::AdmitSplit | Step::MarkReady | Step::MarkQuiet
    );
    format!("{}{}", step_name(step), if lacks { " *" } else { "" })
}

/// Both sides leave the same snapshot: they are timed at the same work.
fn assert_agree(at: &Situation) {
    let mut room = Room::of(&at.board);
    room.three(&at.call);
    let three = room.written().to_vec();
    room.round(&at.call);
    assert!(room.written() == three, "one call differs from three");
    let mut out = Vec::new();
    rand::lend(&at.call.draws);
    round_once_in_maps(&bytes_of(&write(&at.board)), at, &mut out);
    assert!(room.written() == out, "{} differs", step_name(at.call.step));
}

fn print_steps() {
    let row = |at: (Shape, Step)| step_figures(Rc::new(situation(at.0, at.1)));
    let rows = SHAPES
        .into_iter()
        .flat_map(|s| steps().map(move |step| (s, step)));
    let figures = measure(rows.map(row).collect());
    for (shape, rows) in SHAPES.into_iter().zip(figures.chunks(steps().count())) {
        println!("\n### {shape}\n");
        println!(
            "| step | the step less the check | Rust | ratio | snapshot in, step, out | by three calls | Rust | ratio |"
        );
        println!("|---|--:|--:|--:|--:|--:|--:|--:|");
        steps()
            .zip(rows)
            .for_each(|(step, row)| print_step(step, row));
    }
}

fn step_figures(at: Rc<Situation>) -> Vec<Figure> {
    assert_agree(&at);
    vec![
        in_place(at.clone()),
        in_maps(at.clone()),
        round(at.clone(), Room::round),
        round(at.clone(), Room::three),
        round_in_maps(at),
    ]
}

fn print_step(step: Step, row: &[f64]) {
    let [ours, rust, one, three, rust_round] = row else {
        unreachable!("as `step_figures` has them")
    };
    println!(
        "| {} | {} | {} | {:.2} | {one:.0} | {three:.0} | {rust_round:.0} | {:.2} |",
        marked(step),
        nanoseconds(*ours),
        nanoseconds(*rust),
        ours / rust,
        one / rust_round
    );
}

/// With a digit after the point where it is small, as two that differ would else look alike.
fn nanoseconds(time: f64) -> String {
    let digits = usize::from(time < 10.0);
    format!("{time:.digits$}")
}

/// The step in place, less the check.
fn in_place(at: Rc<Situation>) -> Figure {
    less_the_check(library::words(&at.board), move |words| {
        library::act(words, &at.call)
    })
}

fn less_the_check(
    template: Vec<u64>,
    mut act: impl FnMut(&mut Vec<u64>) -> u64 + 'static,
) -> Figure {
    over(
        template.clone(),
        move |words| words.copy_from_slice(&template),
        move |words| {
            black_box(act(words));
        },
        |words| {
            black_box(exports::well_formed(words));
        },
    )
}

/// The Rust's own function on its live state.
fn in_maps(at: Rc<Situation>) -> Figure {
    let template = judge::to_state(&at.board);
    let (step, args) = (at.call.step, at.call.args);
    time(
        template.clone(),
        move |state| {
            state.clone_from(&template);
            rand::lend(&at.call.draws);
        },
        move |state| {
            let mut counts = [0; 2];
            black_box(maps::act(state, step, args, &mut counts));
            black_box(&counts);
        },
    )
}

fn round(at: Rc<Situation>, act: fn(&mut Room, &Call)) -> Figure {
    time(Room::of(&at.board), |_| (), move |room| act(room, &at.call))
}

fn round_in_maps(at: Rc<Situation>) -> Figure {
    let bytes = bytes_of(&write(&at.board));
    let lent = at.clone();
    time(
        Vec::new(),
        move |_| rand::lend(&lent.call.draws),
        move |out| round_once_in_maps(&bytes, &at, out),
    )
}

fn round_once_in_maps(bytes: &[u8], at: &Situation, out: &mut Vec<u8>) {
    let mut state = snapshot::read(bytes).expect("a snapshot");
    let mut counts = [0; 2];
    let answer = maps::act(&mut state, at.call.step, at.call.args, &mut counts);
    black_box(&counts);
    assert_eq!(answer, 0, "{}", step_name(at.call.step));
    snapshot::write(&state, out);
}

fn print_checks() {
    let mut boards: Vec<(String, Board)> = SHAPES.map(|s| (s.to_string(), base(s))).to_vec();
    boards.push(("the worst: 24 committees of 96".to_string(), worst()));
    let figures = measure(
        boards
            .iter()
            .map(|(_, board)| check_figures(board))
            .collect(),
    );
    println!("\n### The check alone, a read and a write\n");
    println!(
        "| board | the check | one pass | passes | a read | a write | the check less itself |"
    );
    println!("|---|--:|--:|--:|--:|--:|--:|");
    for ((name, _), row) in boards.iter().zip(figures) {
        let [check, pass, read, write, itself] = row[..] else {
            unreachable!("as `check_figures` has them")
        };
        println!(
            "| {name} | {check:.0} | {pass:.0} | {:.2} | {read:.0} | {write:.0} | {itself:.1} |",
            check / pass
        );
    }
}

/// The last, 0 by an exact clock, is what timing alone adds to a step less the check.
fn check_figures(board: &Board) -> Vec<Figure> {
    let room = Room::of(board);
    let itself = less_the_check(library::words(board), |words| exports::well_formed(words));
    [Room::check, Room::pass, Room::read, Room::write]
        .map(|act: fn(&mut Room)| time(room.clone(), |_| (), act))
        .into_iter()
        .chain([itself])
        .collect()
}

fn print_growth() {
    let shapes = growing();
    let figures = measure(steps().map(|step| growth_figures(&shapes, step)).collect());
    let heads: Vec<String> = shapes.iter().map(|s| s.machines.to_string()).collect();
    println!("\n### From 16 machines to 256, S=4\n");
    println!("| step | {} | times | Rust's |", heads.join(" | "));
    println!("|---|--:|--:|--:|--:|--:|--:|--:|");
    for (step, row) in steps().zip(figures) {
        let (ours, rust) = row.split_at(shapes.len());
        let cells: Vec<String> = ours.iter().map(|time| nanoseconds(*time)).collect();
        println!(
            "| {} | {} | {:.1} | {:.1} |",
            marked(step),
            cells.join(" | "),
            ours[ours.len() - 1] / ours[0],
            rust[1] / rust[0]
        );
    }
}

/// In place on each board, and in maps on the first and on the last.
fn growth_figures(shapes: &[Shape], step: Step) -> Vec<Figure> {
    let all: Vec<Rc<Situation>> = shapes
        .iter()
        .map(|shape| Rc::new(situation(*shape, step)))
        .collect();
    let ends = [0, all.len() - 1].map(|end| in_maps(all[end].clone()));
    all.into_iter().map(in_place).chain(ends).collect()
}
