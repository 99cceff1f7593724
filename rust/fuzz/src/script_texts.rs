//! Scripts' texts and rooms for their tables (request P4).

use reference::{read_text, write_text, Brackets};

use crate::arena::Order;
use crate::mutate_text::{bracket, change, change_bytes, change_number, change_operator, put_mark};
use crate::nests::NESTS;
use crate::prng::Prng;
use crate::scripts::{script, Divisions, Shape, Split};
use crate::tokens::{spaced, split, NO_TOKENS, TOKENS};

/// The most words that a table has.
pub const LARGEST_TABLE: usize = 8_192;

/// The most bytes that a text has.
pub const LONGEST_SCRIPT: usize = 32_768;

/// Document 01's example A as text.
pub const EXAMPLE_A_TEXT: &str = "\
pre 0 <= v0;
while 0 < v0 keep 0 <= v0 fall v0 do v0 := v0 - 1 end;
post v0 = 0
";

/// A room at, below or above the need.
pub fn any_room_for_table(text: &[u8], random: &mut Prng) -> usize {
    let need = read_text(text, LARGEST_TABLE).words.len();
    let any = random.below(400);
    if need == 0 && text.len() > 4_000 {
        return LARGEST_TABLE + 4 * random.below(3);
    }
    if need == 0 {
        return random.pick(&[0, 0, 1, 15, 16, any, any, LARGEST_TABLE, LARGEST_TABLE + 4]);
    }
    match random.below(16) {
        0..=5 => need,
        6..=7 => need - 1,
        8 => need - 1 - random.below(8),
        9 => need + 1 + random.below(8),
        10 | 11 => need + any,
        12 | 13 => random.below(need),
        14 => random.pick(&[0, 1, 4, 16]),
        _ => LARGEST_TABLE + random.below(8),
    }
}

/// Texts that are read, changed in tokens, in brackets, in numbers and in bytes,
/// cut, noise, and texts at limits.
pub fn any_script_text(random: &mut Prng) -> Vec<u8> {
    if random.once_in(600) {
        return text_at_a_limit(random);
    }
    match random.below(64) {
        0..=12 => written(random, |_, _| ()),
        13..=20 => changed(change, random),
        21..=24 => changed(put_mark, random),
        25..=29 => changed(bracket, random),
        30..=33 => changed(|tokens, random| change_operator(tokens, random), random),
        34..=42 => changed(|tokens, random| change_number(tokens, random), random),
        43..=47 => written(random, |tokens, random| {
            bracket(tokens, random);
            change_operator(tokens, random);
            if random.once_in(2) {
                put_mark(tokens, random);
                change_number(tokens, random);
                change(tokens, random);
            }
        }),
        48..=51 => {
            let mut text = written(random, |_, _| ());
            text.truncate(random.below(text.len() + 1));
            text
        }
        52..=56 => {
            let mut text = written(random, |_, _| ());
            (0..1 + random.below(3)).for_each(|_| change_bytes(&mut text, random));
            text
        }
        57..=59 => begun_with_noise(random),
        60 => noise(random),
        _ => {
            let count = random.below(40);
            nested(count, random)
        }
    }
}

/// Changes the tokens of a text.
type Change = fn(&mut Vec<&str>, &mut Prng);

/// The text of a script by chance, with its tokens changed one to three times.
fn changed(change: Change, random: &mut Prng) -> Vec<u8> {
    let text = script_text(random);
    let mut tokens = split(&text);
    (0..1 + random.below(3)).for_each(|_| change(&mut tokens, random));
    spaced(&tokens, random)
}

/// The text of a script by chance, with its tokens changed.
fn written(random: &mut Prng, change: Change) -> Vec<u8> {
    let text = script_text(random);
    let mut tokens = split(&text);
    change(&mut tokens, random);
    spaced(&tokens, random)
}

/// The text of a script by chance, as the reference writes it.
pub fn script_text(random: &mut Prng) -> String {
    let rows = match random.below(64) {
        0 => 40 + random.below(200),
        1..=12 => 10 + random.below(40),
        _ => 4 + random.below(20),
    };
    let shape = Shape {
        rows,
        variables: random.pick(&[1, 3, 3, 896]),
        nesting: random.pick(&[0, 1, 2, 3, 12]),
        split: random.pick(&[Split::Anywhere, Split::FirstSmall, Split::SecondSmall]),
        faults: 0,
        divisions: Divisions::Some,
    };
    let brackets = match random.below(4) {
        0 => Brackets::Full,
        _ => Brackets::Fewest,
    };
    text_of_shape(shape, brackets, random)
}

/// The text of a script of this shape.
pub fn text_of_shape(shape: Shape, brackets: Brackets, random: &mut Prng) -> String {
    let mut arena = script(random, shape);
    // No text has a sequence as the first part of another.
    arena.group_to_the_right(34);
    let words = arena.words(Order::Newest, random);
    write_text(&words, brackets).expect("a script that texts can say")
}

/// The front of a text that is read, and tokens by chance.
fn begun_with_noise(random: &mut Prng) -> Vec<u8> {
    let text = script_text(random);
    let mut tokens = split(&text);
    tokens.truncate(random.below(tokens.len() + 1));
    tokens.extend((0..random.below(12)).map(|_| random.pick(&TOKENS)));
    spaced(&tokens, random)
}

/// Tokens, words that are none, and bytes.
fn noise(random: &mut Prng) -> Vec<u8> {
    let mut text = Vec::new();
    for _ in 0..random.below(30) {
        let token = match random.below(8) {
            0 => random.pick(&NO_TOKENS),
            _ => random.pick(&TOKENS),
        };
        text.extend(token.bytes());
        if random.once_in(8) {
            text.push(random.number() as u8);
        }
    }
    text
}

/// A nest, now and then with something too many or too few behind.
fn nested(count: usize, random: &mut Prng) -> Vec<u8> {
    let behind = match random.below(4) {
        0 => random.pick(&[0, count / 2, count.saturating_sub(1), count + 1]),
        _ => count,
    };
    random.pick(&NESTS).text(count, behind).into_bytes()
}

/// A nest as deep as a text has bytes, or as a table has rows; and blanks up to
/// the longest text.
fn text_at_a_limit(random: &mut Prng) -> Vec<u8> {
    let nest = random.pick(&NESTS);
    let bytes = LONGEST_SCRIPT + random.pick(&[0, 1, 1, 2, 2, 3]) - 1;
    let deepest = nest.deepest(bytes);
    let depth = match random.below(4) {
        0 => deepest,
        1 | 2 => (nest.deepest_in_table() + random.below(4) - 1).min(deepest),
        _ => random.below(deepest),
    };
    let mut text = nest.text(depth, depth).into_bytes();
    if random.below(4) > 0 {
        let place = random.pick(&[0, 3, text.len()]);
        let blanks = vec![b' '; bytes - text.len()];
        text.splice(place..place, blanks);
    }
    text
}
