//! Lists that shorten, lists that hardly do, and pairs of them.

use super::lists::{few_words, list, tear};
use super::Chance;

const LONGEST_LIST: usize = 16_384;

/// A well-formed list full of 0, 1, true and false, in every place.
pub fn padded_list(chance: &mut Chance) -> Vec<i32> {
    let conditions = match chance.below(30) {
        0 => 100 + chance.below(100),
        _ => 1 + chance.below(5),
    };
    let (mut words, mut count) = (Vec::new(), 0);
    for _ in 0..conditions {
        let most = chance.pick(&[6, 20, 20, 60]) as usize;
        let size = if chance.once_in(200) {
            3_000
        } else {
            chance.below(most)
        };
        let mut formula = Vec::new();
        write_formula(chance, size, &mut formula);
        let length = formula.len() as i32;
        let any_row = chance.below(2_048) as i32;
        words.extend(formula);
        words.extend([
            chance.pick(&[1, 2, 3, 4, 5]),
            chance.pick(&[0, 2_047, any_row]),
            length,
        ]);
        count += 1;
    }
    words.push(count);
    words
}

/// A list as above, one that hardly shortens, a few words, or a torn one.
pub fn any_list(chance: &mut Chance) -> Vec<i32> {
    let mut words = match chance.below(8) {
        0 => list(chance),
        1 => long_list(chance),
        2 => few_words(chance),
        _ => padded_list(chance),
    };
    for _ in 0..chance.pick(&[0, 0, 0, 0, 1, 2]) {
        tear(&mut words, chance);
    }
    words
}

/// A formula in which one part goes on and on, as long as a list may be, or a word more;
/// or some hundred words.
fn long_list(chance: &mut Chance) -> Vec<i32> {
    let most = match chance.below(12) {
        0 => LONGEST_LIST - 5 + chance.below(3),
        _ => 20 + chance.below(500),
    };
    let around: [[&[i32]; 2]; 10] = [
        [&[23, 16], &[]],
        [&[23], &[16]],
        [&[25, 16], &[]],
        [&[25], &[17]],
        [&[22], &[]],
        [&[22, 23], &[17]],
        [&[20, 3, 1, 0, 10], &[1, 1, 2, 0, 2, 3]],
        [&[18, 1, 0, 10], &[5, 2, 7, 1, 1, 9, 5]],
        [&[19, 4, 10], &[4, 1, 0, 1, 0, 2, 0, 1, 0, 2, 1]],
        [&[24, 17], &[]],
    ];
    let levels: Vec<[&[i32]; 2]> = (0..3).map(|_| chance.any_of(&around)).collect();
    let (mut front, mut back) = (Vec::new(), Vec::new());
    for [before, behind] in levels.into_iter().cycle() {
        if front.len() + back.len() + before.len() + behind.len() >= most {
            break;
        }
        front.extend(before);
        back.extend(behind.iter().rev());
    }
    back.reverse();
    let nots = vec![22; most - 1 - front.len() - back.len()];
    let truth = chance.pick(&[16, 17]);
    let formula = [&front[..], &nots, &[truth], &back].concat();
    [&formula[..], &[4, 0, formula.len() as i32, 1]].concat()
}

fn write_formula(chance: &mut Chance, size: usize, words: &mut Vec<i32>) {
    let first = chance.below(size.max(1));
    let second = size.saturating_sub(first + 1);
    match chance.below(8) {
        _ if size < 2 => words.push(chance.pick(&[16, 17])),
        0 => {
            words.push(22);
            write_formula(chance, size - 1, words);
        }
        1..=4 => {
            words.push(chance.pick(&[23, 23, 24, 25, 25]));
            write_formula(chance, first, words);
            write_formula(chance, second, words);
        }
        _ => {
            words.push(chance.pick(&[18, 19, 20, 21]));
            write_expression(chance, first, words);
            write_expression(chance, second, words);
        }
    }
}

fn write_expression(chance: &mut Chance, size: usize, words: &mut Vec<i32>) {
    let first = chance.below(size.max(1));
    let second = size.saturating_sub(first + 1);
    match chance.below(12) {
        _ if size < 2 => match chance.below(5) {
            0 | 1 => words.extend([1, 0]),
            2 => words.extend([1, chance.pick(&[1, 1, 1, -1, 2, i32::MIN])]),
            3 => words.extend([2, chance.below(1_024) as i32]),
            _ => words.extend([9, chance.below(2_048) as i32]),
        },
        0 => {
            words.push(8);
            write_expression(chance, size - 1, words);
        }
        1 => {
            words.push(10);
            write_formula(chance, first, words);
            write_expression(chance, second / 2, words);
            write_expression(chance, second - second / 2, words);
        }
        _ => {
            words.push(chance.pick(&[3, 3, 4, 4, 5, 5, 6, 7]));
            write_expression(chance, first, words);
            write_expression(chance, second, words);
        }
    }
}
