//! Small calls for the definitions, printed as an antt source file.

use std::collections::{BTreeMap, BTreeSet};
use std::fmt::Write;

use board::read;
use plain::{Outcome, Step};

use crate::{Kind, Made, Rng, Series, Sizes, can_occur, make_series};

/// The longest snapshots taken, in words: a first half of each class has the
/// shorter ones. Then the most machines, and the most calls in one list.
const WORDS: [usize; 2] = [90, 150];
const MACHINES: usize = 14;
const LIST: usize = 40;

/// A call with the snapshot before it.
pub struct Small {
    pub before: Vec<u64>,
    pub made: Made,
}

/// What sets calls of one pair apart: whether nothing, one or, in a batch, more
/// was handled, and whether the board changed.
type Class = (Step, u64, u64, bool);

/// Calls of every class that small boards show, a few of each and no two of
/// a class and length from one series.
#[must_use]
pub fn small_calls(seed: u64) -> Vec<Small> {
    let mut found: BTreeMap<Class, Vec<Small>> = BTreeMap::new();
    for (pass, words) in WORDS.into_iter().enumerate() {
        let mut rng = Rng::new(seed + pass as u64);
        for turn in 0..6_000 {
            let kind = kind(turn);
            let series = make_series(&mut rng, kind, sizes(kind, turn));
            if series.bytes.is_multiple_of(8) {
                let share = WORDS.len() - pass;
                offer_series(&mut found, series, words, share);
            }
        }
    }
    found.into_values().flatten().collect()
}

fn kind(turn: u64) -> Kind {
    match turn % 8 {
        0..3 => Kind::Passing,
        3..6 => Kind::Disturbed,
        6 => Kind::Many,
        _ if turn % 16 == 7 => Kind::Misnumbered,
        _ => Kind::Broken,
    }
}

fn offer_series(
    found: &mut BTreeMap<Class, Vec<Small>>,
    series: Series,
    words: usize,
    share: usize,
) {
    let mut taken = BTreeSet::new();
    let mut before = series.start;
    for made in series.made {
        let after = made.after.clone();
        let small = Small { before, made };
        let class = class(&small);
        let kept = found.entry(class).or_default();
        let room = kept.len() < quota(class).div_ceil(share);
        if room && small.before.len() <= words && few_machines(&small) && taken.insert(class) {
            kept.push(small);
        }
        before = after;
    }
}

/// Boards of at most 14 machines, S mostly 4 or 5; for batches, S=4 and two
/// shards with two watching each.
fn sizes(kind: Kind, turn: u64) -> Sizes {
    let (size, shards, machines) = match kind {
        Kind::Many => ((4, 4), 2, 12),
        _ if turn % 10 == 9 => ((4, 7), 1 + turn % 2, MACHINES),
        _ => ((4, 5), 1 + turn % 2, MACHINES),
    };
    Sizes {
        size,
        shards,
        machines,
        calls: 45,
    }
}

fn class(small: &Small) -> Class {
    let step = small.made.call.step;
    let Outcome {
        answer, handled, ..
    } = small.made.outcome;
    let changed = small.made.after != small.before;
    let batch = (Step::ScheduleSplits..=Step::CutMerges).contains(&step);
    let most = if batch { 2 } else { 1 };
    (step, answer, handled.min(most), changed)
}

fn quota((_, answer, handled, changed): Class) -> usize {
    match (answer, handled, changed) {
        (0, 1, true) => 10,
        (0, 0, false) => 3,
        _ => 4,
    }
}

fn few_machines(small: &Small) -> bool {
    read(&small.before).is_none_or(|board| board.machines.len() <= MACHINES)
}

/// The pairs that small boards show: every one that can occur, but for the
/// limits that need a large board.
#[must_use]
pub fn shown_small(step: Step) -> Vec<u64> {
    let twice_in_a_committee = [Step::DrawCohort, Step::Leave, Step::Rotate];
    let answers = can_occur(step).iter().copied();
    answers
        .filter(|answer| *answer != 11 || twice_in_a_committee.contains(&step))
        .collect()
}

fn list(words: &[u64]) -> String {
    let mut out = String::new();
    for word in words {
        let _ = write!(out, "{word} ∷ ");
    }
    out.push_str("[]");
    if words.is_empty() {
        out
    } else {
        format!("({out})")
    }
}

/// A call and the snapshot before it, as a line of the source file.
#[must_use]
pub fn line(before: &[u64], made: &Made) -> String {
    let Made {
        call,
        outcome,
        after,
    } = made;
    let args = [call.args.shard, call.args.machine, call.args.side];
    // A refused read leaves no board.
    let after: &[u64] = if outcome.answer == 13 { &[] } else { after };
    format!(
        "call {} {} {} {} {} {} {} {}",
        call.step as u64,
        list(&args),
        list(&call.draws),
        list(before),
        outcome.answer,
        outcome.handled,
        outcome.used,
        list(after)
    )
}

/// The source file.
#[must_use]
pub fn print_small(calls: &[Small]) -> String {
    let mut out = String::from(
        "-- Calls recorded from the original Rust and from the plain reading, made by `oracle/small`; \
         see docs/RECORDED.md.\n\
         use mathlib.Core.List.{List, [], ◌∷◌}\n\
         use Rattle.recorded.specs.Call.{Call, call}\n",
    );
    let lists = calls.chunks(LIST);
    let names: Vec<String> = (1..=lists.len()).map(|n| format!("calls{n}")).collect();
    for (name, calls) in names.iter().zip(lists) {
        let lines = calls.iter().map(|small| line(&small.before, &small.made));
        let lines: Vec<String> = lines.collect();
        let rows = lines.join("\n    ∷ ");
        let _ = write!(
            out,
            "\n{name} : List Call\n{name} =\n    {rows}\n    ∷ []\n"
        );
    }
    let opened = names.join(" ");
    let all = names.join(" ∷ ");
    let _ = write!(
        out,
        "\nunfoldable pub all : List (List Call)\nunfolding {opened}\nall = {all} ∷ []\n"
    );
    out
}
