//! Scripts' texts that are noise, or at limits.

use super::Chance;

/// Tokens without order.
pub fn noise(chance: &mut Chance) -> Vec<u8> {
    let mut text = match chance.below(3) {
        0 => Vec::new(),
        1 => b"pre true;".to_vec(),
        _ => b"pre ".to_vec(),
    };
    for _ in 0..chance.below(16) {
        text.extend(chance.any_of(&TOKENS).bytes());
        if !chance.once_in(4) {
            text.push(b' ');
        }
    }
    text
}

/// A text about as long, or of about as many rows, as there may be.
pub fn text_at_a_limit(chance: &mut Chance) -> Vec<u8> {
    let length = 32_767 + chance.below(3);
    let [first, each, middle, close, last] = chance.any_of(&NESTS);
    let room = length - first.len() - middle.len() - last.len();
    let most = room / (each.len() + close.len());
    let rows = 2_042 + chance.below(8);
    let depth = match chance.below(4) {
        0 => most,
        1 => chance.below(most),
        2 => rows.min(most),
        _ => (rows / 2).min(most),
    };
    let text = [
        first,
        &each.repeat(depth),
        middle,
        &close.repeat(depth),
        last,
    ]
    .concat();
    let mut text = text.into_bytes();
    if chance.once_in(2) {
        let place = chance.any_of(&[0, 4, text.len()]);
        let blanks = vec![b'\n'; length - text.len()];
        text.splice(place..place, blanks);
    }
    text
}

const NESTS: [[&str; 5]; 9] = [
    ["pre ", "(", "true", ")", ";skip;post true"],
    ["pre ", "(", "v0", ")", "<1;skip;post true"],
    ["pre ", "(", "v0", ")", ";skip;post true"],
    ["pre ", "not ", "true", "", ";skip;post true"],
    ["pre 1 < ", "-", "v0", "", ";skip;post true"],
    ["pre ", "true implies ", "false", "", ";skip;post true"],
    ["pre true;", "skip;", "skip", "", ";post true"],
    [
        "pre true;",
        "if true then ",
        "skip",
        " else skip end",
        ";post true",
    ],
    [
        "pre true;",
        "while true keep true fall 0 do ",
        "assert mark(1)=mark(2)",
        " end",
        ";post true",
    ],
];

pub const TOKENS: [&str; 46] = [
    "pre",
    "post",
    "skip",
    "assert",
    "if",
    "then",
    "else",
    "end",
    "while",
    "keep",
    "fall",
    "do",
    "implies",
    "or",
    "and",
    "not",
    "div",
    "mod",
    "mark",
    "when",
    "true",
    "false",
    ":=",
    ";",
    "<",
    "<=",
    "=",
    "<>",
    "+",
    "-",
    "*",
    "(",
    ")",
    ",",
    "0",
    "1",
    "07",
    "2147483648",
    "v0",
    "v1",
    "v1023",
    "v1024",
    "v",
    "foo",
    ":",
    "?",
];
