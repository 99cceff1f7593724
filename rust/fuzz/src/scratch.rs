//! How many words of scratch are lent: around what a table needs since request P8, two words a
//! row, and around what it needed before, (nesting + 2) × room.

use reference::{Need, LONGEST_LIST};

use crate::prng::Prng;

/// The largest number of ifs and whiles on one path of an accepted table.
pub fn nesting(words: &[i32]) -> usize {
    let mut below: Vec<usize> = Vec::new();
    for &[kind, first, second, third] in words.as_chunks().0 {
        let of = |link: i32| below[link as usize];
        below.push(match kind {
            34 => of(first).max(of(second)),
            35 => 1 + of(second).max(of(third)),
            36 => 1 + of(third),
            48 => of(second),
            _ => 0,
        });
    }
    below.last().copied().unwrap_or(0)
}

/// What an accepted table needed before P8, with a list buffer of this length.
pub fn need_before_p8(words: &[i32], list_len: usize) -> usize {
    (nesting(words) + 2) * list_len.min(LONGEST_LIST)
}

/// A scratch for an accepted table and a list buffer of this length: none, at, below and above the
/// need, and so of the need before P8; and what the need might be taken for.
pub fn any_scratch(words: &[i32], need: Need, list_len: usize, random: &mut Prng) -> usize {
    let enough = need.scratch;
    let before = need_before_p8(words, list_len);
    match random.below(40) {
        0..=13 => enough,
        14..=19 => enough - 1,
        20..=22 => enough + 1,
        23 | 24 => enough + random.below(100),
        25..=27 => random.below(enough),
        28 => enough / 2,
        29 => random.pick(&[enough - 2, words.len(), 2 * list_len.min(LONGEST_LIST)]),
        30..=32 => before,
        33..=35 => before.saturating_sub(1),
        36 => before + 1,
        37 => before.max(enough) + random.below(100),
        _ => 0,
    }
}
