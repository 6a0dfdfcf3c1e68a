//! Snapshots that are no well-formed board's.

use board::{read, structured};

use crate::Rng;

/// Words of the right structure whose numbers break a rule, or none after
/// some tries.
pub fn misnumbered(rng: &mut Rng, words: &[u64]) -> Option<Vec<u64>> {
    for _ in 0..60 {
        let mut words = words.to_vec();
        spoil_word(rng, &mut words);
        if structured(&words) && read(&words).is_none() {
            return Some(words);
        }
    }
    None
}

fn spoil_word(rng: &mut Rng, words: &mut [u64]) {
    let at = rng.below(words.len() as u64) as usize;
    let other = words[rng.below(words.len() as u64) as usize];
    let values = [
        words[at].wrapping_add(1),
        words[at].wrapping_sub(1),
        other,
        0,
        1,
        2,
        65_536,
        32_768,
        8_589_934_592,
        u64::MAX,
    ];
    words[at] = rng.pick(&values).unwrap_or(other);
}

/// Bytes of no snapshot: words lost, added or changed, or no whole words. The
/// length is in bytes; the last word's missing bytes are 0.
pub fn broken(rng: &mut Rng, words: &[u64]) -> (Vec<u64>, u64) {
    loop {
        let mut words = words.to_vec();
        match rng.below(6) {
            0 => words.truncate(rng.below(words.len() as u64) as usize),
            1 => words.push(rng.below(3)),
            2 => {
                words.remove(rng.below(words.len() as u64) as usize);
            }
            3 => words.insert(rng.below(words.len() as u64) as usize, rng.below(3)),
            4 => return cut_short(rng, words),
            _ => spoil_word(rng, &mut words),
        }
        if read(&words).is_none() {
            let bytes = words.len() as u64 * 8;
            return (words, bytes);
        }
    }
}

fn cut_short(rng: &mut Rng, mut words: Vec<u64>) -> (Vec<u64>, u64) {
    let kept = rng.between(1, 7);
    let bytes = (words.len() as u64 - 1) * 8 + kept;
    if let Some(last) = words.last_mut() {
        *last %= 1 << (8 * kept);
    }
    (words, bytes)
}
