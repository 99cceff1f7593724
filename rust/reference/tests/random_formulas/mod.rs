//! Formulas by chance, full of what the rules of request P6 look for.

use super::random::Random;

/// An expression by chance, its words put after those in `words`.
fn put_expression(random: &mut Random, depth: usize, words: &mut Vec<i32>) {
    let kind = match depth {
        0 => random.pick(&[1, 1, 2, 9]),
        _ => random.pick(&[1, 2, 3, 3, 4, 4, 4, 5, 5, 6, 7, 8, 9, 10]),
    };
    words.push(kind);
    match kind {
        1 => words.push(random.pick(&[0, 0, 0, 0, 1, 1, 1, -1, 2, i32::MIN])),
        2 => words.push(random.pick(&[0, 1, 128, 1_023])),
        9 => words.push(random.pick(&[0, 3])),
        8 => put_expression(random, depth - 1, words),
        _ => {
            if kind == 10 {
                put_formula(random, depth - 1, words);
            }
            put_expression(random, depth - 1, words);
            put_expression(random, depth - 1, words);
        }
    }
}

/// A formula by chance, its words put after those in `words`.
fn put_formula(random: &mut Random, depth: usize, words: &mut Vec<i32>) {
    let kind = match depth {
        0 => random.pick(&[16, 17]),
        _ => random.pick(&[16, 17, 18, 19, 20, 21, 22, 22, 23, 23, 23, 24, 25, 25, 25]),
    };
    words.push(kind);
    match kind {
        16 | 17 => {}
        22 => put_formula(random, depth - 1, words),
        18..=21 => {
            put_expression(random, depth - 1, words);
            put_expression(random, depth - 1, words);
        }
        _ => {
            put_formula(random, depth - 1, words);
            put_formula(random, depth - 1, words);
        }
    }
}

pub fn formula_by_chance(random: &mut Random) -> Vec<i32> {
    let mut words = Vec::new();
    let depth = 1 + random.below(6);
    put_formula(random, depth, &mut words);
    words
}
