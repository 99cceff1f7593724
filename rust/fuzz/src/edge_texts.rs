//! Scripts' texts at the edges of what may be written (request P4): every blank at
//! every gap, numbers and marks beside their limits and of up to 10,000 digits,
//! texts and tables of exactly the most bytes and rows, nests of mixed parts, and
//! several faults in one text.

use reference::read_text;

use crate::inputs::Input;
use crate::prng::Prng;
use crate::script_texts::{script_text, LARGEST_TABLE, LONGEST_SCRIPT};
use crate::tokens::{split, would_merge, NO_TOKENS, TOKENS};

/// Once in so many texts one is as long as a text may be, or longer. The reference
/// takes up to 50 ms for such a one, and 50 µs for a short one.
const ONCE_LONG: usize = 500;

/// A text at an edge, and a room beside its need.
pub fn edge_script(random: &mut Prng) -> Input {
    let is_long = random.once_in(ONCE_LONG);
    let mut tokens = match random.below(4) {
        0 if is_long => mixed_nest(LONGEST_SCRIPT, random),
        0 => mixed_nest(random.pick(&[200, 400, 1_200]), random),
        _ => words_of(&script_text(random)),
    };
    for _ in 0..random.below(4) {
        change(&mut tokens, random);
    }
    if random.once_in(30) {
        fill_table(&mut tokens, random);
    }
    let mut text = joined(&tokens, random);
    if is_long {
        lengthen(&mut text, random);
    }
    if random.once_in(6) {
        text.truncate(random.below(text.len() + 1));
    }
    let room = room_beside_need(&text, random);
    Input::Script { text, room }
}

fn words_of(text: &str) -> Vec<String> {
    split(text).into_iter().map(String::from).collect()
}

/// Rooms at the need, one word and one row beside it, and at the largest table's.
fn room_beside_need(text: &[u8], random: &mut Prng) -> usize {
    let need = match read_text(text, LARGEST_TABLE).words.len() {
        0 => random.pick(&[0, 16, 400, LARGEST_TABLE]),
        need => need,
    };
    let beside = [need, need, need + 1, need + 4, LARGEST_TABLE];
    match random.below(8) {
        0 => need.saturating_sub(1),
        1 => need.saturating_sub(random.pick(&[2, 3, 4, 5])),
        2 => random.pick(&[0, 1, 3, 4, LARGEST_TABLE - 1, LARGEST_TABLE + 1]),
        _ => random.pick(&beside),
    }
}

// ---- tokens changed

/// One change: most leave a text that is read, or one with a fault of one number.
fn change(tokens: &mut Vec<String>, random: &mut Prng) {
    match random.below(10) {
        0..=2 => change_number(tokens, random),
        3..=4 => put_mark(tokens, random),
        5 => wrap(tokens, random.pick(&[1, 1, 2, 3, 40]), random),
        6 => put_minuses(tokens, random.pick(&[1, 1, 2, 3, 40]), random),
        7 => insert(tokens, random.pick(&TOKENS), random),
        8 => insert(tokens, random.pick(&NO_TOKENS), random),
        _ => {
            if !tokens.is_empty() {
                tokens.remove(random.below(tokens.len()));
            }
        }
    }
}

fn insert(tokens: &mut Vec<String>, token: &str, random: &mut Prng) {
    let place = random.below(tokens.len() + 1);
    tokens.insert(place, token.to_string());
}

/// The places of numerals and variables.
fn numbers(tokens: &[String]) -> Vec<usize> {
    let is_number = |place: &usize| tokens[*place].ends_with(|end: char| end.is_ascii_digit());
    (0..tokens.len()).filter(is_number).collect()
}

/// The places of numerals and variables that stand for a value.
fn operands(tokens: &[String]) -> Vec<usize> {
    let is_target = |place: usize| tokens.get(place + 1).is_some_and(|next| next == ":=");
    let mut places = numbers(tokens);
    places.retain(|&place| !is_target(place));
    places
}

/// Where the ranges of variables and constants end, and where those of fewer bits do.
const NUMBERS: [u128; 26] = [
    0,
    1,
    9,
    10,
    127,
    128,
    255,
    256,
    1_023,
    1_024,
    1_025,
    4_095,
    4_096,
    65_535,
    65_536,
    65_537,
    2_147_483_646,
    2_147_483_647,
    2_147_483_648,
    2_147_483_649,
    4_294_967_294,
    4_294_967_295,
    4_294_967_296,
    4_294_967_297,
    1 << 63,
    (1 << 64) + 1,
];

/// A number at an edge, now and then with zeros before it or of very many digits.
fn edge_digits(random: &mut Prng) -> String {
    let number = match random.below(2) {
        0 => random.pick(&[1_023, 1_024, 2_147_483_647, 2_147_483_648]),
        _ => random.pick(&NUMBERS),
    };
    let number = number.to_string();
    match random.below(64) {
        0 => "0".repeat(10_000 - random.below(100)) + &number,
        1 => number + &"0".repeat(10_000 - random.below(100)),
        2..=6 => "0".repeat(1 + random.below(24)) + &number,
        7..=9 => number + &"7".repeat(1 + random.below(24)),
        _ => number,
    }
}

/// Puts a number at an edge, with a minus before a numeral or without; every other
/// time where a minus stands, of either kind, if there is one.
fn change_number(tokens: &mut Vec<String>, random: &mut Prng) {
    let places = numbers(tokens);
    let after_minus = |place: &&usize| **place > 0 && tokens[**place - 1] == "-";
    let special: Vec<usize> = places.iter().filter(after_minus).copied().collect();
    let place = match random.below(2) {
        0 if !special.is_empty() => random.pick(&special),
        _ if !places.is_empty() => random.pick(&places),
        _ => return,
    };
    let digits = edge_digits(random);
    if tokens[place].starts_with('v') && !random.once_in(4) {
        tokens[place] = format!("v{digits}");
        return;
    }
    tokens[place] = digits;
    for _ in 0..random.pick(&[0, 0, 1, 1, 2]) {
        tokens.insert(place, "-".to_string());
    }
}

/// How many loops' bodies stand around each token.
fn depths(tokens: &[String]) -> Vec<usize> {
    let mut open = Vec::new();
    let mut depths = Vec::new();
    for token in tokens {
        if token == "end" {
            open.pop();
        }
        depths.push(open.iter().filter(|is_body| **is_body).count());
        match token.as_str() {
            "if" | "while" => open.push(false),
            "do" => *open.last_mut().unwrap_or(&mut false) = true,
            _ => {}
        }
    }
    depths
}

/// Puts a mark whose count is the depth where it stands, or beside it.
fn put_mark(tokens: &mut Vec<String>, random: &mut Prng) {
    let places = operands(tokens);
    if places.is_empty() {
        return;
    }
    let place = random.pick(&places);
    let depth = depths(tokens)[place];
    let count = match random.below(16) {
        0..=5 => depth.to_string(),
        6..=8 => (depth + 1).to_string(),
        9 => depth.saturating_sub(1).to_string(),
        10 => "0".to_string(),
        11 => format!("0{depth}"),
        12 => format!("{depth}{}", "0".repeat(random.pick(&[1, 9, 10, 20, 9_000]))),
        13 => ((1_u128 << 32) + depth as u128).to_string(),
        14 => ((1_u128 << 64) + depth as u128).to_string(),
        _ => "1".to_string(),
    };
    let mark = ["mark", "(", &count, ")"].map(String::from);
    tokens.splice(place..=place, mark);
}

/// Puts so many brackets around an operand, which change nothing.
fn wrap(tokens: &mut Vec<String>, count: usize, random: &mut Prng) {
    let places = operands(tokens);
    if places.is_empty() {
        return;
    }
    let place = random.pick(&places);
    let after = vec![")".to_string(); count];
    tokens.splice(place + 1..place + 1, after);
    let before = vec!["(".to_string(); count];
    tokens.splice(place..place, before);
}

/// Puts so many minuses before an operand: before a variable each makes a row.
fn put_minuses(tokens: &mut Vec<String>, count: usize, random: &mut Prng) {
    let places = operands(tokens);
    if places.is_empty() {
        return;
    }
    let place = random.pick(&places);
    tokens.splice(place..place, vec!["-".to_string(); count]);
}

/// Minuses up to a table of 2,047, 2,048 or 2,049 rows.
fn fill_table(tokens: &mut Vec<String>, random: &mut Prng) {
    let rows = read_text(tokens.join(" ").as_bytes(), LARGEST_TABLE)
        .words
        .len()
        / 4;
    let wanted = LARGEST_TABLE / 4 + random.below(3) - 1;
    if rows == 0 || rows > wanted {
        return;
    }
    let mut places = operands(tokens);
    places.retain(|&place| tokens[place].starts_with('v'));
    if let Some(&place) = places.first() {
        tokens.splice(place..place, vec!["-".to_string(); wanted - rows]);
    }
}

// ---- tokens put together

const BLANKS: [&str; 4] = [" ", "\t", "\r", "\n"];

/// Bytes that look like blanks and are none.
const NO_BLANKS: [&str; 6] = ["\x0b", "\x0c", "\0", "\x7f", "\u{a0}", "\u{85}"];

/// The tokens with blanks of every kind at every gap, and none where none must be.
fn joined(tokens: &[String], random: &mut Prng) -> Vec<u8> {
    let often = random.pick(&[0, 0, 1, 2, 4]);
    let mut text = Vec::new();
    let mut left = "";
    for token in tokens.iter().map(String::as_str).chain([""]) {
        let must = would_merge(left, token) && !random.once_in(400);
        let count = match (must, random.below(4) < often) {
            (_, true) => 1 + random.pick(&[0, 0, 0, 1, 2, 30]),
            (true, false) => 1,
            (false, false) => 0,
        };
        for _ in 0..count {
            text.extend(random.pick(&BLANKS).bytes());
        }
        if random.once_in(2_000) {
            text.extend(random.pick(&NO_BLANKS).bytes());
        }
        text.extend(token.bytes());
        left = token;
    }
    text
}

/// Up to 32,767, 32,768 or 32,769 bytes: by blanks at the front, at a gap or at the
/// end, or by digits of a numeral.
fn lengthen(text: &mut Vec<u8>, random: &mut Prng) {
    let wanted = LONGEST_SCRIPT + random.below(3) - 1;
    let lacking = wanted.saturating_sub(text.len());
    let is_place = |byte: &u8| match byte {
        b'0'..=b'9' => true,
        _ => byte.is_ascii_whitespace(),
    };
    let inside: Vec<usize> = (0..text.len()).filter(|&at| is_place(&text[at])).collect();
    let place = match random.below(4) {
        0 => 0,
        1 => text.len(),
        _ if inside.is_empty() => 0,
        _ => random.pick(&inside),
    };
    let filling = match text.get(place) {
        Some(digit) if digit.is_ascii_digit() => *digit,
        _ => random.pick(b" \t\r\n"),
    };
    text.splice(place..place, vec![filling; lacking]);
}

// ---- nests of mixed parts

/// What a part of a nest is.
#[derive(Clone, Copy, PartialEq)]
enum Sort {
    Formula,
    Expression,
    Statement,
}

use Sort::{Expression, Formula, Statement};

/// A part of the first sort, around one of the second.
type Layer = (Sort, &'static str, Sort, &'static str);

const LAYERS: [Layer; 26] = [
    (Formula, "(", Formula, ")"),
    (Formula, "not", Formula, ""),
    (Formula, "not (", Formula, ")"),
    (Formula, "true and (", Formula, ")"),
    (Formula, "true implies", Formula, ""),
    (Formula, "(", Formula, ") or false"),
    (Formula, "(", Expression, ") < 1"),
    (Formula, "v1 <>", Expression, ""),
    (Expression, "(", Expression, ")"),
    (Expression, "- (", Expression, ")"),
    (Expression, "- - (", Expression, ")"),
    (Expression, "1 + (", Expression, ") * 2"),
    (Expression, "when ( true ,", Expression, ", 2 )"),
    (Expression, "when ( false , - 2 ,", Expression, ")"),
    (Expression, "when (", Formula, ", v0 , v128 )"),
    (Statement, "skip ;", Statement, ""),
    (Statement, "if true then", Statement, "else skip end"),
    (Statement, "if true then skip else", Statement, "end"),
    (Statement, "if", Formula, "then skip else skip end"),
    (
        Statement,
        "while true keep true fall 0 do",
        Statement,
        "end",
    ),
    (
        Statement,
        "while true keep true fall 0 do",
        Statement,
        "end ; skip",
    ),
    (Statement, "while", Formula, "keep true fall 0 do skip end"),
    (Statement, "while true keep", Formula, "fall 0 do skip end"),
    (
        Statement,
        "while true keep true fall",
        Expression,
        "do skip end",
    ),
    (Statement, "assert", Formula, ""),
    (Statement, "v0 :=", Expression, ""),
];

/// Parts in one another, in at most so many bytes, now and then with a closing part
/// too many or too few.
fn mixed_nest(bytes: usize, random: &mut Prng) -> Vec<String> {
    let (first, mut sort, last) = random.pick(&[
        ("pre", Formula, "; skip ; post true"),
        ("pre true ;", Statement, "; post true"),
        ("pre true ;", Statement, "; post true"),
        ("pre true ; skip ; post", Formula, ""),
    ]);
    let mut before = vec![first];
    let mut behind = vec![last];
    let mut left = random.below(bytes).saturating_sub(60);
    loop {
        // Once it is left, no statement is met again.
        let stays = sort == Statement && !random.once_in(12);
        let layers = LAYERS.iter().filter(|layer| layer.0 == sort);
        let layers = layers.filter(|layer| layer.2 == Statement || !stays);
        let layers: Vec<&Layer> = layers.collect();
        let (_, open, inner, close) = *random.pick(&layers);
        // One byte more for a blank.
        let taken = open.len() + close.len() + 2;
        if taken > left {
            break;
        }
        left -= taken;
        before.push(open);
        behind.push(close);
        sort = inner;
    }
    before.push(match sort {
        Formula => "false",
        Expression => "v0",
        Statement => "skip",
    });
    match random.below(8) {
        0 => drop(behind.pop()),
        1 => behind.push(")"),
        2 => behind.truncate(random.below(behind.len() + 1)),
        _ => {}
    }
    behind.reverse();
    let all = before.iter().chain(&behind);
    let words = all.flat_map(|part| part.split_ascii_whitespace());
    words.map(String::from).collect()
}
