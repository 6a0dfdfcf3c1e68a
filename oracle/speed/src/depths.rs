//! The deepest that each call goes into the stack, over its situations and
//! many calls from a seed.

use std::collections::BTreeMap;
use std::hint::black_box;

use board::Board;
use calls::{Call, Rng, any_series, step_name};
use plain::Step;
use roster::exports;

use crate::boards::{SHAPES, situation};
use crate::library::{Room, act, words};
use crate::stack::Stack;
use crate::tables::steps;

/// How many calls from the seed are looked at.
const CALLS: usize = 20_000;

struct Depths {
    stack: Stack,
    /// What the call itself takes, before the library is entered.
    own: usize,
    deepest: BTreeMap<&'static str, usize>,
}

impl Depths {
    fn note(&mut self, name: &'static str, act: impl FnMut()) {
        let depth = self.stack.deepest(act).saturating_sub(self.own);
        let most = self.deepest.entry(name).or_default();
        *most = depth.max(*most);
    }

    fn see(&mut self, board: &Board, call: &Call) {
        if call.step == Step::Read {
            let mut room = Room::of(board);
            self.note("the check alone", || room.check());
            self.note("a read", || room.read());
            self.note("a write", || room.write());
            return;
        }
        let mut room = Room::of(board);
        self.note("snapshot in, step, out", || room.round(call));
        let mut words = words(board);
        self.note(step_name(call.step), || {
            black_box(act(&mut words, call));
        });
    }

    fn see_series(&mut self) {
        let mut rng = Rng::new(1);
        let mut made = 0;
        while made < CALLS {
            let series = any_series(&mut rng);
            let mut before = &series.start;
            for turn in &series.made {
                if let Some(board) = board::read(before) {
                    self.see(&board, &turn.call);
                }
                before = &turn.after;
                made += 1;
            }
        }
    }
}

pub fn print() {
    let mut stack = Stack::new();
    let own = stack.deepest(|| {
        black_box(exports::words());
    });
    let mut depths = Depths {
        stack,
        own,
        deepest: BTreeMap::new(),
    };
    for shape in SHAPES {
        for step in steps() {
            let at = situation(shape, step);
            depths.see(&at.board, &at.call);
        }
    }
    depths.see_series();
    println!("\n### The deepest stack, in bytes\n");
    println!("| call | bytes |");
    println!("|---|--:|");
    for (name, bytes) in &depths.deepest {
        println!("| {name} | {bytes} |");
    }
}
