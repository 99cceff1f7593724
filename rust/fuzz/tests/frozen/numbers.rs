//! Variable numbers from 256 to 1,023, and those at the edges of the ranges.

use super::formulas::variables_of_last_line;
use super::tables::{script, Script};
use super::Chance;

/// Whether a row of the table has a number from 256 to 1,023 for a variable.
pub fn table_has_new_number(words: &[i32]) -> bool {
    let (rows, _) = words.as_chunks();
    let has_one = |row: &[i32; 4]| matches!(row, [2 | 33, 256..=1_023, ..]);
    rows.iter().any(has_one)
}

/// Whether a line has a number from 256 to 1,023 for a variable. Every place
/// where a line may end counts, since a reader may stand there.
pub fn list_has_new_number(words: &[i32]) -> bool {
    let is_new = |number| matches!(number, 256..=1_023);
    let variables_before = |place| variables_of_last_line(&words[..place]);
    (0..=words.len())
        .filter_map(variables_before)
        .flatten()
        .any(is_new)
}

/// A script whose ordinary variables have numbers from 256 to 1,023, or those of
/// them that had an odd number.
pub fn renumbered_script(chance: &mut Chance) -> Script {
    let mut script = script(chance);
    let anywhere = 256 + chance.below(641) as i32;
    let first = chance.pick(&[256, anywhere, 896]);
    let even_ones_stay = chance.once_in(2);
    for row in script.words.chunks_exact_mut(4) {
        if let [2 | 33, number @ 0..=127, ..] = row {
            if *number % 2 != 0 || !even_ones_stay {
                *number += first;
            }
        }
    }
    script
}

/// Puts numbers at the edges of the ranges after some of the kinds that take a
/// variable's number. What may be a kind stands so many words apart.
pub fn put_at_edges(words: &mut [i32], apart: usize, kinds: &[i32], chance: &mut Chance) {
    let once_in = 1 + chance.below(20);
    for place in (0..words.len().saturating_sub(1)).step_by(apart) {
        if kinds.contains(&words[place]) && chance.once_in(once_in) {
            words[place + 1] = chance.pick(&[-1, 127, 128, 255, 256, 1_023, 1_024]);
        }
    }
}
