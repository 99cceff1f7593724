//! The tokens of a text.

/// The name under which the grammar knows every numeral; the text itself has
/// no such keyword.
pub const NUMERAL: &str = "numeral";

/// The name under which the grammar knows every variable.
pub const VARIABLE: &str = "variable";

const KEYWORDS: [&str; 22] = [
    "pre", "post", "skip", "assert", "if", "then", "else", "end", "while", "keep", "fall", "do",
    "implies", "or", "and", "not", "div", "mod", "mark", "when", "true", "false",
];

const SIGNS: [&str; 12] = [
    ":=", ";", "<", "<=", "=", "<>", "+", "-", "*", "(", ")", ",",
];

/// "spaces, tabs, CR and LF part tokens"
const BLANKS: [u8; 4] = [b' ', b'\t', b'\r', b'\n'];

#[derive(Clone, Copy)]
pub struct Token<'a> {
    /// A keyword or a sign is its own name.
    pub name: &'static str,
    /// The offset of the token's first byte.
    pub place: usize,
    pub spelling: &'a [u8],
}

/// All tokens of the text, or "the first byte that begins no token".
pub fn split(text: &[u8]) -> Result<Vec<Token<'_>>, usize> {
    let mut tokens = Vec::new();
    let mut place = 0;
    while place < text.len() {
        if BLANKS.contains(&text[place]) {
            place += 1;
            continue;
        }
        let (name, length) = first_token(&text[place..]).ok_or(place)?;
        let spelling = &text[place..place + length];
        tokens.push(Token {
            name,
            place,
            spelling,
        });
        place += length;
    }
    Ok(tokens)
}

/// The name and the length of the token that the first byte begins. "The
/// longest token is taken."
fn first_token(text: &[u8]) -> Option<(&'static str, usize)> {
    if text[0].is_ascii_alphabetic() {
        // "letters and digits from a letter on are one word"
        let length = count_leading(text, u8::is_ascii_alphanumeric);
        return name_of_word(&text[..length]).map(|name| (name, length));
    }
    if text[0].is_ascii_digit() {
        return Some((NUMERAL, count_leading(text, u8::is_ascii_digit)));
    }
    SIGNS
        .into_iter()
        .filter(|sign| text.starts_with(sign.as_bytes()))
        .max_by_key(|sign| sign.len())
        .map(|sign| (sign, sign.len()))
}

/// "a keyword, or v with digits"; nothing for any other word.
fn name_of_word(word: &[u8]) -> Option<&'static str> {
    if word[0] == b'v' && word.len() > 1 && word[1..].iter().all(u8::is_ascii_digit) {
        return Some(VARIABLE);
    }
    KEYWORDS
        .into_iter()
        .find(|keyword| keyword.as_bytes() == word)
}

fn count_leading(text: &[u8], fits: fn(&u8) -> bool) -> usize {
    text.iter().take_while(|byte| fits(byte)).count()
}
