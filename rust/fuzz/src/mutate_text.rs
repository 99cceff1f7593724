//! Scripts' texts with tokens or bytes changed.

use crate::prng::Prng;
use crate::tokens::{NO_TOKENS, NUMERALS, TOKENS, VARIABLES};

/// Changes the tokens in one way.
pub fn change(tokens: &mut Vec<&str>, random: &mut Prng) {
    if tokens.is_empty() {
        tokens.push(random.pick(&TOKENS));
        return;
    }
    let place = random.below(tokens.len());
    let other = random.below(tokens.len());
    let next = (place + 1) % tokens.len();
    match random.below(9) {
        0 | 1 => tokens[place] = random.pick(&TOKENS),
        2 => tokens.insert(place, tokens[place]),
        3 => {
            tokens.remove(place);
        }
        4 => tokens.swap(place, next),
        5 => tokens.swap(place, other),
        6 => tokens.insert(place, random.pick(&TOKENS)),
        7 => tokens[place] = tokens[other],
        _ => {
            let some = 1 + random.below(6);
            let end = tokens.len().min(other + some);
            let part = tokens[other..end].to_vec();
            tokens.splice(place..place, part);
        }
    }
}

/// Puts brackets around some tokens: mostly few.
pub fn bracket(tokens: &mut Vec<&str>, random: &mut Prng) {
    let start = random.below(tokens.len() + 1);
    let most = random.pick(&[2, 4, 12, tokens.len() + 1]);
    let end = (start + random.below(most)).min(tokens.len());
    tokens.insert(end, ")");
    tokens.insert(start, "(");
}

/// What stands between two parts, of either sort.
const OPERATORS: [&str; 12] = [
    "+", "-", "*", "div", "mod", "<", "<=", "=", "<>", "and", "or", "implies",
];

/// Puts an operator in place of another, mostly of another sort.
pub fn change_operator(tokens: &mut [&str], random: &mut Prng) {
    let places = places_of(tokens, |_, token| OPERATORS.contains(&token));
    if !places.is_empty() {
        tokens[random.pick(&places)] = random.pick(&OPERATORS);
    }
}

/// Puts a numeral or a variable at an edge of its range, on either side; every
/// other time after a minus or in a mark, where there is such a one.
pub fn change_number(tokens: &mut [&str], random: &mut Prng) {
    let all = places_of(tokens, |_, token| has_number(token));
    let special = places_of(tokens, |before, token| {
        has_number(token) && ["-", "("].contains(&before)
    });
    let places = match random.below(2) {
        0 if !special.is_empty() => special,
        _ if !all.is_empty() => all,
        _ => return,
    };
    let place = random.pick(&places);
    let is_after_minus = place > 0 && tokens[place - 1] == "-";
    tokens[place] = match (tokens[place].starts_with('v'), random.below(3)) {
        _ if is_after_minus && random.once_in(2) => "2147483648",
        (true, 0) => random.pick(&["v1023", "v1024"]),
        (true, _) => random.pick(&VARIABLES),
        (false, 0) => random.pick(&["2147483647", "2147483648", "1", "2"]),
        (false, _) => random.pick(&NUMERALS),
    };
}

/// Puts a mark in place of a numeral or of a variable that is read: soon after a
/// loop's body has begun, where there is one.
pub fn put_mark(tokens: &mut Vec<&str>, random: &mut Prng) {
    let bodies = places_of(tokens, |_, token| token == "do");
    let start = match bodies.is_empty() {
        true => 0,
        false => random.pick(&bodies),
    };
    let is_target = |place: usize| tokens.get(place + 1) == Some(&":=");
    let mut places = places_of(tokens, |_, token| has_number(token));
    places.retain(|&place| place > start && place < start + 20 && !is_target(place));
    if places.is_empty() {
        return;
    }
    let place = random.pick(&places);
    let count = match random.below(6) {
        0 => random.pick(&["01", "3", "4", "4294967297", "18446744073709551617"]),
        1 => "0",
        2 => "2",
        _ => "1",
    };
    tokens.splice(place..=place, ["mark", "(", count, ")"]);
}

fn has_number(token: &str) -> bool {
    token.ends_with(|letter: char| letter.is_ascii_digit())
}

/// The places of tokens that are wanted; each is asked with the one before it.
fn places_of(tokens: &[&str], is_wanted: impl Fn(&str, &str) -> bool) -> Vec<usize> {
    let before = [""].iter().chain(tokens);
    let pairs = before.zip(tokens).enumerate();
    let wanted = pairs.filter(|(_, (before, token))| is_wanted(before, token));
    wanted.map(|(place, _)| place).collect()
}

/// Changes bytes of a text in one way.
pub fn change_bytes(text: &mut Vec<u8>, random: &mut Prng) {
    let place = random.below(text.len() + 1);
    let end = (place + random.below(4)).min(text.len());
    let any = random.number() as u8;
    let known = random.pick(b" \t\r\n:;<=>+-*(),0123456789vsedVZ_az.");
    let word = random.pick(&NO_TOKENS);
    match random.below(7) {
        0 => text.insert(place, any),
        1 => text.insert(place, known),
        2 => {
            text.drain(place..end);
        }
        3 => {
            text.splice(place..end, word.bytes());
        }
        4 => {
            text.splice(place..end, [any]);
        }
        5 => text[place..end].make_ascii_uppercase(),
        _ => {
            text.splice(place..end, [known]);
        }
    }
}
