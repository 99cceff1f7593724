//! The tokens of scripts' texts (request P4): taken apart, and put together again
//! with blanks between.

use crate::prng::Prng;

/// Every keyword and sign, and some numerals and variables.
pub const TOKENS: [&str; 42] = [
    "pre", "post", "skip", "assert", "if", "then", "else", "end", "while", "keep", "fall", "do",
    "implies", "or", "and", "not", "div", "mod", "mark", "when", "true", "false", ":=", ";", "<",
    "<=", "=", "<>", "+", "-", "*", "(", ")", ",", "0", "1", "2", "5", "v0", "v1", "v128", "v1023",
];

/// Numerals at the edges of ranges, and such as keep to them in fewer bits only.
pub const NUMERALS: [&str; 22] = [
    "0",
    "00",
    "01",
    "1",
    "2",
    "3",
    "8",
    "9",
    "10",
    "1023",
    "1024",
    "2147483646",
    "2147483647",
    "2147483648",
    "2147483649",
    "02147483648",
    "4294967295",
    "4294967297",
    "9223372036854775808",
    "18446744073709551615",
    "18446744073709551617",
    "340282366920938463463374607431768211457",
];

pub const VARIABLES: [&str; 18] = [
    "v0",
    "v00",
    "v01",
    "v9",
    "v10",
    "v127",
    "v128",
    "v255",
    "v256",
    "v1022",
    "v1023",
    "v1024",
    "v1025",
    "v01023",
    "v9999",
    "v65536",
    "v4294967296",
    "v18446744073709551616",
];

/// What holds a byte that begins no token, or is a token only in part.
pub const NO_TOKENS: [&str; 26] = [
    "foo",
    "v",
    "v1x",
    "vv1",
    "Skip",
    "V0",
    "skip1",
    "whiles",
    "pre0",
    "1x",
    "truefalse",
    ":",
    ": =",
    "?",
    "_",
    "v_1",
    "\0",
    "\x0b",
    "\x0c",
    "\x7f",
    "[",
    ">",
    ">=",
    "==",
    "é",
    "\u{a0}",
];

const BLANKS: [&str; 9] = [" ", " ", " ", "\n", "\t", "\r\n", "  ", " \t", "\r"];

/// The tokens of a text that has nothing else.
pub fn split(text: &str) -> Vec<&str> {
    let mut tokens = Vec::new();
    let mut rest = text.trim_start();
    while let Some(first) = rest.bytes().next() {
        let is_in_word: fn(&u8) -> bool = match first {
            b'0'..=b'9' => u8::is_ascii_digit,
            _ => u8::is_ascii_alphanumeric,
        };
        let length = rest.bytes().take_while(is_in_word).count();
        let signs = [":=", "<=", "<>"];
        let length = match signs.iter().any(|sign| rest.starts_with(sign)) {
            true => 2,
            false => length.max(1),
        };
        tokens.push(&rest[..length]);
        rest = rest[length..].trim_start();
    }
    tokens
}

/// Whether the two would be read otherwise without a blank between.
pub fn would_merge(left: &str, right: &str) -> bool {
    let last = left.bytes().last().unwrap_or(b' ');
    let first = right.bytes().next().unwrap_or(b' ');
    let is_numeral = left.bytes().all(|byte| byte.is_ascii_digit());
    match (last, first) {
        (b'<', b'=' | b'>') | (b':', b'=') => true,
        _ if is_numeral => first.is_ascii_digit(),
        _ => last.is_ascii_alphanumeric() && first.is_ascii_alphanumeric(),
    }
}

/// Puts tokens together, with blanks wherever they must part two, and elsewhere
/// as chance has it.
pub fn spaced(tokens: &[&str], random: &mut Prng) -> Vec<u8> {
    // How often in four a blank stands where none must.
    let often = random.pick(&[0, 1, 2, 4]);
    let usual = random.once_in(2);
    let mut text = Vec::new();
    let mut left = "";
    for &token in tokens.iter().chain([&""]) {
        let must = would_merge(left, token);
        if must || random.below(4) < often {
            let blank = if usual { " " } else { random.pick(&BLANKS) };
            text.extend(blank.bytes());
        }
        text.extend(token.bytes());
        left = token;
    }
    text
}
