//! Faults that show in the text itself. A place in a text that is put in place of
//! another is the same place there.

use fuzz::ReadAnswer;

use super::ReadFault::{self, *};
use super::{refuse, right};

/// The text as what it is mistaken for, as long as it was.
pub fn mistaken(fault: ReadFault, text: &[u8]) -> Vec<u8> {
    let each = |change: fn(u8) -> u8| text.iter().map(|byte| change(*byte)).collect();
    match fault {
        CarriageReturnIsNoBlank => each(|byte| if byte == b'\r' { b'?' } else { byte }),
        FormFeedIsBlank => each(|byte| if byte == b'\x0c' { b' ' } else { byte }),
        OtherBytesAreBlanks => each(|byte| if byte > b'~' { b' ' } else { byte }),
        CapitalsAreTaken => each(|byte| byte.to_ascii_lowercase()),
        NulIsTheEnd => {
            let mut bytes = text.split(|byte| *byte == 0);
            bytes.next().expect("a part").to_vec()
        }
        UnequalIsEqual => replaced(text, b"<>", b"= "),
        DivIsMod => replaced(text, b"div", b"mod"),
        LeadingZerosAreBlanks => {
            let mut changed = text.to_vec();
            for (place, length) in numerals(text) {
                let digits = &mut changed[place..place + length];
                let zeros = digits.iter().take_while(|digit| **digit == b'0').count();
                digits[..zeros.min(length - 1)].fill(b' ');
            }
            changed
        }
        _ => text.to_vec(),
    }
}

/// The text with every occurrence of some bytes as others, as many.
fn replaced(text: &[u8], old: &[u8], new: &[u8]) -> Vec<u8> {
    let mut changed = text.to_vec();
    let places = (0..text.len()).filter(|place| text[*place..].starts_with(old));
    places.for_each(|place| changed[place..place + new.len()].copy_from_slice(new));
    changed
}

/// The places and lengths of numerals: digits that no letter or digit precedes.
fn numerals(text: &[u8]) -> Vec<(usize, usize)> {
    let starts = (0..text.len()).filter(|&place| {
        let is_first = place == 0 || !text[place - 1].is_ascii_alphanumeric();
        is_first && text[place].is_ascii_digit()
    });
    let with_length = |place| (place, digits_at(text, place).len());
    starts.map(with_length).collect()
}

fn digits_at(text: &[u8], place: usize) -> &[u8] {
    let digits = text[place..]
        .iter()
        .take_while(|byte| byte.is_ascii_digit());
    &text[place..place + digits.count()]
}

/// The answer to a text that is taken for another one, where it is.
pub fn misread(fault: ReadFault, text: &[u8], answer: ReadAnswer, words: &mut [i32]) -> ReadAnswer {
    let place = answer.place;
    let other = match (fault, answer.number) {
        (SemicolonBeforeEnd, 41) => without_semicolon(text, place),
        (TextAfterTheScript, 41) => Some(text[..place].to_vec()),
        (FortyOneBeforeForty, 40) => {
            let before = right(&text[..place], words);
            if before.number == 41 && before.place < place {
                return before;
            }
            None
        }
        (FortyTwoBeforeFortyOne, 41) => {
            let before = text[..place].to_vec();
            if let Some(fault) = first_too_large(&before) {
                return refuse(42, fault, words);
            }
            None
        }
        (LeastConstantRefused, 0) => {
            let spelled = (0..text.len()).find(|place| text[*place..].starts_with(b"2147483648"));
            if let Some(place) = spelled {
                return refuse(42, place, words);
            }
            None
        }
        (_, 42) => in_range(fault, text, place),
        _ => None,
    };
    let Some(other) = other else {
        return right(&mistaken(fault, text), words);
    };
    let found = right(&other, words);
    match (fault, found.number) {
        (SemicolonBeforeEnd | LastOutOfRange, _) | (_, 0) => found,
        _ => right(&mistaken(fault, text), words),
    }
}

/// Where the token at a place closes a part and a semicolon stands before it.
fn without_semicolon(text: &[u8], place: usize) -> Option<Vec<u8>> {
    let closes = text[place..].starts_with(b"end") || text[place..].starts_with(b"else");
    let before = text[..place].trim_ascii_end();
    (closes && before.ends_with(b";")).then(|| {
        let mut text = text.to_vec();
        text[before.len() - 1] = b' ';
        text
    })
}

/// The text with the number that is out of range taken for one that is not.
fn in_range(fault: ReadFault, text: &[u8], place: usize) -> Option<Vec<u8>> {
    let is_variable = text[place] == b'v';
    let start = place + usize::from(is_variable);
    let digits = digits_at(text, start);
    let put = |new: &[u8]| {
        let mut text = text.to_vec();
        text[start..start + new.len()].copy_from_slice(new);
        text
    };
    let is_after = |sign: u8| text[..place].trim_ascii_end().ends_with(&[sign]);
    match fault {
        Variable1024 => (is_variable && digits == b"1024").then(|| put(b"1023")),
        LeadingZeroOfVariable if is_variable && digits.len() > 1 && digits[0] == b'0' => {
            Some(put(&vec![b'1'; digits.len()]))
        }
        ConstantOneTooLarge => (digits == b"2147483648").then(|| put(b"2147483647")),
        BinaryMinusBeforeTheLargest if digits == b"2147483648" && is_after(b'-') => {
            Some(put(b"2147483647"))
        }
        MarkZero => (digits == b"0" && is_after(b'(')).then(|| put(b"1")),
        MarkOneTooFar if digits.len() == 1 && digits[0] > b'1' => Some(put(&[digits[0] - 1])),
        LastOutOfRange => {
            let mut other = put(&vec![b' '; digits.len()]);
            other[start] = b'1';
            let again = right(&other, &mut []);
            (again.number == 42).then_some(other)
        }
        _ => None,
    }
}

/// The first numeral or variable that is too large wherever it stands.
fn first_too_large(text: &[u8]) -> Option<usize> {
    let mut places = (0..text.len()).filter(|&place| {
        let is_first = place == 0 || !text[place - 1].is_ascii_alphanumeric();
        is_first && text[place].is_ascii_alphanumeric()
    });
    places.find(|&place| {
        let is_variable = text[place] == b'v';
        let digits = digits_at(text, place + usize::from(is_variable));
        let most = if is_variable { 4 } else { 10 };
        digits.len() > most || is_variable && digits == b"1024"
    })
}

/// The word `mark` before its numeral at a place.
pub fn mark_before(text: &[u8], place: usize) -> Option<usize> {
    let before = text[..place].trim_ascii_end().strip_suffix(b"(")?;
    let before = before.trim_ascii_end().strip_suffix(b"mark")?;
    Some(before.len())
}

/// The last byte of a word.
pub fn end_of_word(text: &[u8], place: usize) -> usize {
    let letters = text[place..]
        .iter()
        .take_while(|byte| byte.is_ascii_alphanumeric());
    place + letters.count().saturating_sub(1)
}

/// The next semicolon, where a connective after a bracket is refused.
pub fn sort_seen_late(text: &[u8], place: usize) -> Option<usize> {
    let connectives: [&[u8]; 3] = [b"and", b"or", b"implies"];
    let is_one = connectives
        .iter()
        .any(|word| text[place..].starts_with(word));
    let is_after_bracket = text[..place].trim_ascii_end().ends_with(b")");
    let semicolon = text[place..].iter().position(|byte| *byte == b';')?;
    (is_one && is_after_bracket).then_some(place + semicolon)
}
