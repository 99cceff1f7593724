//! Lists that no generator need have written, whole and torn.

use super::Chance;

const LONGEST_LIST: usize = 16_384;

/// A well-formed list.
pub fn list(chance: &mut Chance) -> Vec<i32> {
    let conditions = match chance.below(12) {
        0 => 50 + chance.below(150),
        _ => 1 + chance.below(6),
    };
    let (mut words, mut count) = (Vec::new(), 0);
    for _ in 0..conditions {
        let size = if chance.once_in(60) { 2_000 } else { 40 };
        let mut formula = Vec::new();
        let size = chance.below(size);
        write_formula(chance, size, &mut formula);
        let length = formula.len();
        if count > 0 && words.len() + length + 4 > LONGEST_LIST {
            break;
        }
        let any_row = chance.below(2_048) as i32;
        words.extend(formula);
        words.extend([
            chance.pick(&[1, 2, 3, 4]),
            chance.pick(&[0, 2_047, any_row]),
            length as i32,
        ]);
        count += 1;
    }
    words.push(count);
    words
}

/// Tears a list in one way; a few ways leave one.
pub fn tear(words: &mut Vec<i32>, chance: &mut Chance) {
    if words.is_empty() {
        words.push(chance.word());
        return;
    }
    let place = chance.below(words.len());
    let last = words.len() - 1;
    match chance.below(12) {
        0 | 1 => words[place] = chance.word(),
        2 => words[place] = words[place].wrapping_add(1),
        3 => words[place] = words[place].wrapping_sub(1),
        4 => _ = words.remove(place),
        5 => {
            let word = chance.word();
            words.insert(place, word);
        }
        6 => words[last] = chance.pick(&[i32::MIN, -1, 0, 1, 2, i32::MAX]),
        7 => words.truncate(place),
        8 => *words = words.split_off(place),
        // The length, the row and the kind of the last trailer.
        9 if last > 2 => words[last - 1] = chance.pick(&[i32::MIN, -1, 0, 1, 2, i32::MAX]),
        10 if last > 2 => words[last - 2] = chance.pick(&[i32::MIN, -1, 0, 2_047, 2_048]),
        11 if last > 2 => words[last - 3] = chance.pick(&[i32::MIN, -1, 0, 1, 4, 5]),
        _ => words.push(words[last]),
    }
}

/// A few words, hardly ever a list.
pub fn few_words(chance: &mut Chance) -> Vec<i32> {
    let length = chance.below(9);
    let mut word = || chance.pick(&[-1, 0, 1, 1, 2, 3, 4, 5, 16, 16, 17, 22]);
    (0..length).map(|_| word()).collect()
}

fn write_formula(chance: &mut Chance, size: usize, words: &mut Vec<i32>) {
    let first = chance.below(size.max(1));
    let second = size.saturating_sub(first + 1);
    match chance.below(6) {
        _ if size < 2 => words.push(chance.pick(&[16, 17])),
        0 => {
            words.push(22);
            write_formula(chance, size - 1, words);
        }
        1 | 2 => {
            words.push(chance.pick(&[23, 24, 25]));
            write_formula(chance, first, words);
            write_formula(chance, second, words);
        }
        _ => {
            words.push(chance.pick(&[18, 19, 20, 21]));
            write_expression(chance, first, words);
            write_expression(chance, second, words);
        }
    }
}

fn write_expression(chance: &mut Chance, size: usize, words: &mut Vec<i32>) {
    let first = chance.below(size.max(1));
    let second = size.saturating_sub(first + 1);
    match chance.below(6) {
        _ if size < 2 => match chance.below(3) {
            0 => words.extend([1, chance.word()]),
            1 => words.extend([2, chance.below(256) as i32]),
            _ => words.extend([9, chance.below(2_048) as i32]),
        },
        0 => {
            words.push(8);
            write_expression(chance, size - 1, words);
        }
        1 => {
            words.push(10);
            write_formula(chance, first, words);
            write_expression(chance, second / 2, words);
            write_expression(chance, second - second / 2, words);
        }
        _ => {
            words.push(chance.pick(&[3, 4, 5, 6, 7]));
            write_expression(chance, first, words);
            write_expression(chance, second, words);
        }
    }
}
