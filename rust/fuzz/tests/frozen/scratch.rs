//! How much scratch a table needs since request P8, and how much it needed before.

use super::divisions::dividing_script;
use super::tables::{altered_script, faulty_script, script, Script};
use super::Chance;

/// Of the buffers that are lent with a table.
#[derive(Clone, Copy)]
pub struct Lengths {
    pub list: usize,
    pub scratch: usize,
}

const LONGEST_LIST: usize = 16_384;

/// The largest number of ifs and whiles on one path of an accepted table.
pub fn nesting(words: &[i32]) -> usize {
    let mut below: Vec<usize> = Vec::new();
    for &[kind, first, second, third] in words.as_chunks().0 {
        let of = |link: i32| below[link as usize];
        below.push(match kind {
            34 => of(first).max(of(second)),
            35 => 1 + of(second).max(of(third)),
            36 => 1 + of(third),
            48 => of(second),
            _ => 0,
        });
    }
    below.last().copied().unwrap_or(0)
}

/// "2 × rows scratch words, whatever the room".
pub fn need(words: &[i32]) -> usize {
    2 * (words.len() / 4)
}

/// Document 01: "(nesting + 2) × room words".
pub fn need_before_p8(words: &[i32], list: usize) -> usize {
    (nesting(words) + 2) * list.min(LONGEST_LIST)
}

/// Whether P8 may have changed the answer for an accepted table: it got 11, or gets it now, and not
/// both.
pub fn p8_may_change(words: &[i32], lengths: Lengths) -> bool {
    let is_short = lengths.scratch < need(words);
    let was_short = lengths.scratch < need_before_p8(words, lengths.list);
    is_short != was_short
}

/// A script of any kind, most of them accepted.
pub fn any_script(chance: &mut Chance) -> Script {
    match chance.below(16) {
        0 => altered_script(chance),
        1 => faulty_script(chance),
        2..=4 => deep_script(chance),
        5..=7 => unread_script(chance),
        8 | 9 => dividing_script(chance),
        _ => script(chance),
    }
}

/// Ifs and whiles in one another around a script's statement.
fn deep_script(chance: &mut Chance) -> Script {
    let mut inner = script(chance);
    let last = inner.words.len() - 4;
    let [_, precondition, mut statement, postcondition] =
        [0, 1, 2, 3].map(|field| inner.words[last + field]);
    inner.words.truncate(last);
    while inner.nesting < 8 && !chance.once_in(6) {
        let row = inner.words.len() as i32 / 4;
        let more = match chance.below(2) {
            0 => vec![[17, 0, 0, 0], [32, 0, 0, 0], [35, row, statement, row + 1]],
            _ => vec![
                [16, 0, 0, 0],
                [17, 0, 0, 0],
                [2, 5, 0, 0],
                [37, row + 1, row + 2, 0],
                [36, row, row + 3, statement],
            ],
        };
        inner.words.extend(more.concat());
        statement = inner.words.len() as i32 / 4 - 1;
        inner.nesting += 1;
    }
    let script = [48, precondition, statement, postcondition];
    inner.words.extend(script);
    inner
}

/// Assignments to what nothing reads: many rows, and a short list.
fn unread_script(chance: &mut Chance) -> Script {
    let mut rows = vec![[16, 0, 0, 0], [32, 0, 0, 0]];
    for _ in 0..1 + chance.below(60) {
        let next = rows.len() as i32;
        let variable = chance.below(4) as i32;
        rows.extend([[1, next, 0, 0], [33, variable, next, 0]]);
        rows.push([34, next - 1, next + 1, 0]);
    }
    let last = rows.len() as i32;
    rows.extend([[16, 0, 0, 0], [48, 0, last - 1, last]]);
    Script {
        words: rows.concat(),
        nesting: 0,
    }
}

/// Any lengths, for a table that is refused.
pub fn any_lengths(words: &[i32], chance: &mut Chance) -> Lengths {
    let list = chance.below(40);
    let scratch = chance.below(need(words) + 5);
    Lengths { list, scratch }
}

/// A list buffer around so many words, and a scratch around both needs of an accepted table.
pub fn around_both_needs(words: &[i32], needed: usize, chance: &mut Chance) -> Lengths {
    let list = match chance.below(8) {
        0..=2 => needed,
        3 => needed - 1,
        4 => needed + chance.below(100),
        5 | 6 => chance.below(needed + 1),
        _ if chance.once_in(8) => LONGEST_LIST + chance.below(3) - 1,
        _ => chance.below(8),
    };
    let (now, before) = (need(words), need_before_p8(words, list));
    let scratch = match chance.below(16) {
        0..=3 => now,
        4..=6 => now - 1,
        7 => now + 1 + chance.below(40),
        8 => chance.below(now),
        9 | 10 => before,
        11 | 12 => before.saturating_sub(1),
        13 => before + 1 + chance.below(40),
        14 => now.min(before) + chance.below(now.abs_diff(before) + 1),
        _ => 0,
    };
    Lengths { list, scratch }
}
