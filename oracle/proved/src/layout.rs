//! The board in words, as docs/DESIGN.md lays it out: read from there, and
//! not from the library.

use board::{
    BOUNDARIES, COMMITTEES, HALF, MACHINES, MEMBERS, RESHAPES, ROTATIONS, SEATS, SETTINGS,
    structured,
};

/// How many words a board is.
pub const WORDS: usize = 5_861;

/// Rows after their count: each a head, then lists of their own.
struct Table {
    room: usize,
    head: usize,
    lists: &'static [List],
}

/// Rows without lists after their count.
struct List {
    room: usize,
    width: usize,
}

impl List {
    const fn words(&self) -> usize {
        1 + self.room * self.width
    }
}

impl Table {
    const fn row(&self) -> usize {
        let mut words = self.head;
        let mut i = 0;
        while i < self.lists.len() {
            words += self.lists[i].words();
            i += 1;
        }
        words
    }

    const fn words(&self) -> usize {
        1 + self.room * self.row()
    }
}

const fn flat(room: usize, head: usize) -> Table {
    let lists = &[];
    Table { room, head, lists }
}

const fn ids(room: usize) -> List {
    List { room, width: 1 }
}

/// The sections in their order; the settings are fifteen rows of one word.
const SECTIONS: [Table; 6] = [
    flat(15, 1),
    flat(MACHINES, 5),
    Table {
        room: COMMITTEES,
        head: 1,
        lists: &[ids(MEMBERS)],
    },
    flat(BOUNDARIES, 8),
    flat(ROTATIONS, 4),
    Table {
        room: RESHAPES,
        head: 9,
        lists: &[
            List {
                room: SEATS,
                width: 3,
            },
            ids(HALF),
            ids(HALF),
        ],
    },
];

/// A snapshot's words in full width, each count followed by its whole room;
/// nothing where they lack a snapshot's structure.
#[must_use]
pub fn unpack(snapshot: &[u64]) -> Option<Vec<u64>> {
    if !structured(snapshot) {
        return None;
    }
    let mut from = snapshot;
    let mut words = Vec::with_capacity(WORDS);
    for table in &SECTIONS {
        let end = words.len() + table.words();
        let count = take(&mut from, &mut words, 1);
        for _ in 0..count {
            take(&mut from, &mut words, table.head);
            for list in table.lists {
                let end = words.len() + list.words();
                let count = take(&mut from, &mut words, 1);
                take(&mut from, &mut words, count * list.width);
                words.resize(end, 0);
            }
        }
        words.resize(end, 0);
    }
    Some(words)
}

/// Moves some words over; the first of them, which may be a count.
fn take(from: &mut &[u64], words: &mut Vec<u64>, number: usize) -> usize {
    let (taken, rest) = from.split_at(number);
    words.extend(taken);
    *from = rest;
    taken.first().map_or(0, |first| *first as usize)
}

/// The snapshot that the words hold, or nothing where their number is
/// another, a count is past its room, or a word past a count is not 0.
#[must_use]
pub fn pack(words: &[u64]) -> Option<Vec<u64>> {
    if words.len() != WORDS || words[0] != SETTINGS as u64 {
        return None;
    }
    let mut snapshot = Vec::new();
    let mut rest = words;
    for table in &SECTIONS {
        let (section, after) = rest.split_at(table.words());
        pack_table(table, section, &mut snapshot)?;
        rest = after;
    }
    Some(snapshot)
}

fn pack_table(table: &Table, section: &[u64], snapshot: &mut Vec<u64>) -> Option<()> {
    let count = count(section[0], table.room)?;
    snapshot.push(section[0]);
    let (rows, room) = section[1..].split_at(count * table.row());
    for row in rows.chunks(table.row()) {
        let (head, mut lists) = row.split_at(table.head);
        snapshot.extend(head);
        for list in table.lists {
            let (words, rest) = lists.split_at(list.words());
            let used = 1 + self::count(words[0], list.room)? * list.width;
            snapshot.extend(&words[..used]);
            zero(&words[used..])?;
            lists = rest;
        }
    }
    zero(room)
}

fn count(word: u64, room: usize) -> Option<usize> {
    usize::try_from(word).ok().filter(|count| *count <= room)
}

fn zero(room: &[u64]) -> Option<()> {
    room.iter().all(|word| *word == 0).then_some(())
}
