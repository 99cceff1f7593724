//! Lists with depths, whole and damaged (request P9).

use super::lists::{few_words, list, tear};
use super::shortening::{any_list, padded_list};
use super::Chance;

/// A whole list from before P9 with any depths, and minus the count.
pub fn put_depths(old: &[i32], chance: &mut Chance) -> Vec<i32> {
    let (count, mut lines) = old.split_last().expect("a count");
    let mut words = vec![-count];
    while let [front @ .., kind, row, length] = lines {
        let (before, formula) = front.split_at(front.len() - *length as usize);
        let depth = chance.below(8) as i32;
        words.extend([&depth, length, row, kind]);
        words.extend(formula.iter().rev());
        lines = before;
    }
    words.reverse();
    words
}

/// A well-formed list.
pub fn list_with_depths(chance: &mut Chance) -> Vec<i32> {
    let old = list(chance);
    put_depths(&old, chance)
}

/// One that shortens.
pub fn padded_list_with_depths(chance: &mut Chance) -> Vec<i32> {
    let old = padded_list(chance);
    put_depths(&old, chance)
}

/// A list in either form, or a damaged one.
pub fn any_list_in_a_form(chance: &mut Chance) -> Vec<i32> {
    let mut words = match chance.below(8) {
        0 => few_words(chance),
        1 => any_list(chance),
        2 => list(chance),
        3 => padded_list(chance),
        4 => list_with_depths(chance),
        _ => padded_list_with_depths(chance),
    };
    for _ in 0..chance.pick(&[0, 0, 0, 1, 1, 2]) {
        damage(&mut words, chance);
    }
    words
}

/// Damages a list, mostly in what tells its form; a few ways leave one.
pub fn damage(words: &mut Vec<i32>, chance: &mut Chance) {
    let Some(last) = words.len().checked_sub(1) else {
        return tear(words, chance);
    };
    let count = words[last];
    match chance.below(8) {
        0 => words[last] = count.wrapping_neg(),
        1 => words[last] = chance.pick(&[i32::MIN, i32::MIN + 1, -2, -1, 0, 1, 2]),
        2 => words[last] = count.wrapping_neg().wrapping_add(chance.pick(&[-1, 1])),
        // The depth of the last line, or its length from before P9.
        3 | 4 if last > 0 => words[last - 1] = chance.pick(&[i32::MIN, -1, 8, 9, 0, 7, i32::MAX]),
        5 if last > 0 => _ = words.remove(last - 1),
        6 => {
            let depth = chance.below(8) as i32;
            words.insert(last, depth);
        }
        _ => tear(words, chance),
    }
}
