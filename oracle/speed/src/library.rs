//! The proved library's side: its exports on words, and a snapshot in and out.

use std::hint::black_box;

use board::{Board, write};
use calls::{Call, bytes_of};
use proved::{arguments, export};
use roster::{SNAPSHOT_MOST, WORDS, exports};

/// A step in place; its answer.
pub fn act(words: &mut [u64], call: &Call) -> u64 {
    export(call, words, &call.draws, &mut [0; 2])
}

/// The board in the library's words.
///
/// # Panics
///
/// Where it isn't well-formed.
#[must_use]
pub fn words(board: &Board) -> Vec<u64> {
    let mut words = vec![0; WORDS];
    let answer = exports::read(&bytes_of(&write(board)), &mut words);
    assert_eq!(answer, 0, "a well-formed board");
    words
}

/// A snapshot, and room for its board and for the snapshot after.
#[derive(Clone)]
pub struct Room {
    snapshot: Vec<u8>,
    words: Vec<u64>,
    bytes: Vec<u8>,
    length: u64,
}

impl Room {
    #[must_use]
    pub fn of(board: &Board) -> Self {
        Self {
            snapshot: bytes_of(&write(board)),
            words: words(board),
            bytes: vec![0; SNAPSHOT_MOST],
            length: 0,
        }
    }

    pub fn check(&mut self) {
        black_box(exports::well_formed(&self.words));
    }

    /// One pass that sums the board's words.
    pub fn pass(&mut self) {
        let words = self.words.iter();
        black_box(words.fold(0_u64, |sum, word| sum.wrapping_add(*word)));
    }

    pub fn read(&mut self) {
        black_box(exports::read(&self.snapshot, &mut self.words));
    }

    pub fn write(&mut self) {
        let answer = exports::write(&self.words, &mut self.bytes, &mut self.length);
        black_box(answer);
    }

    /// The snapshot last written.
    #[must_use]
    pub fn written(&self) -> &[u8] {
        &self.bytes[..self.length as usize]
    }

    /// Snapshot in, step, snapshot out.
    pub fn round(&mut self, call: &Call) {
        let (first, second) = arguments(call);
        let mut results = [0; 3];
        let answer = exports::apply(
            &self.snapshot,
            call.step as u64,
            first,
            second,
            &call.draws,
            &mut self.words,
            &mut self.bytes,
            &mut results,
        );
        black_box(answer);
        self.length = results[2];
    }

    /// The same by three calls.
    pub fn three(&mut self, call: &Call) {
        self.read();
        black_box(act(&mut self.words, call));
        self.write();
    }
}
