//! JSON, read as strictly as it is written: without blanks. No test uses all of
//! this.

#![allow(dead_code)]

use std::iter::Peekable;
use std::str::Chars;

#[derive(Clone, Debug, PartialEq, Eq)]
pub enum Json {
    Text(String),
    /// As it is written.
    Number(String),
    List(Vec<Json>),
    Object(Vec<(String, Json)>),
}

impl Json {
    /// Reads one value and the end of its line.
    pub fn read(text: &str) -> Json {
        Json::parts(text).unwrap_or_else(|| panic!("no JSON: {text}"))
    }

    fn parts(text: &str) -> Option<Json> {
        let mut letters = text.chars().peekable();
        let value = value(&mut letters)?;
        (letters.collect::<String>() == "\n").then_some(value)
    }

    pub fn field(&self, name: &str) -> Option<&Json> {
        let (_, value) = self.fields().iter().find(|(other, _)| other == name)?;
        Some(value)
    }

    pub fn fields(&self) -> &[(String, Json)] {
        match self {
            Json::Object(fields) => fields,
            other => panic!("no object: {other:?}"),
        }
    }

    /// The names of its fields.
    pub fn names(&self) -> Vec<&str> {
        let fields = self.fields().iter();
        fields.map(|(name, _)| name.as_str()).collect()
    }

    pub fn text(&self, name: &str) -> &str {
        match self.field(name) {
            Some(Json::Text(text)) => text,
            other => panic!("{name} is no text: {other:?}"),
        }
    }

    pub fn number(&self, name: &str) -> &str {
        match self.field(name) {
            Some(Json::Number(digits)) => digits,
            other => panic!("{name} is no number: {other:?}"),
        }
    }

    pub fn list(&self, name: &str) -> &[Json] {
        match self.field(name) {
            Some(Json::List(items)) => items,
            other => panic!("{name} is no list: {other:?}"),
        }
    }
}

type Letters<'a> = Peekable<Chars<'a>>;

fn value(letters: &mut Letters) -> Option<Json> {
    match letters.peek()? {
        '"' => text(letters).map(Json::Text),
        '[' => items(letters, ['[', ']'], value).map(Json::List),
        '{' => {
            let fields = items(letters, ['{', '}'], field)?;
            has_each_name_once(&fields).then_some(Json::Object(fields))
        }
        _ => number(letters).map(Json::Number),
    }
}

fn field(letters: &mut Letters) -> Option<(String, Json)> {
    let name = text(letters)?;
    pass(letters, ':')?;
    Some((name, value(letters)?))
}

fn has_each_name_once(fields: &[(String, Json)]) -> bool {
    let mut names: Vec<&str> = fields.iter().map(|(name, _)| name.as_str()).collect();
    names.sort();
    names.windows(2).all(|pair| pair[0] != pair[1])
}

fn items<T>(
    letters: &mut Letters,
    [open, close]: [char; 2],
    item: fn(&mut Letters) -> Option<T>,
) -> Option<Vec<T>> {
    pass(letters, open)?;
    let mut items = Vec::new();
    if letters.next_if_eq(&close).is_some() {
        return Some(items);
    }
    loop {
        items.push(item(letters)?);
        match letters.next()? {
            ',' => (),
            letter => return (letter == close).then_some(items),
        }
    }
}

fn text(letters: &mut Letters) -> Option<String> {
    pass(letters, '"')?;
    let mut text = String::new();
    loop {
        match letters.next()? {
            '"' => return Some(text),
            '\\' => text.push(escaped(letters)?),
            letter if letter < ' ' => return None,
            letter => text.push(letter),
        }
    }
}

fn escaped(letters: &mut Letters) -> Option<char> {
    match letters.next()? {
        letter @ ('"' | '\\' | '/') => Some(letter),
        'n' => Some('\n'),
        'r' => Some('\r'),
        't' => Some('\t'),
        'b' => Some('\u{8}'),
        'f' => Some('\u{c}'),
        'u' => {
            let digits: String = letters.by_ref().take(4).collect();
            let is_number =
                digits.len() == 4 && digits.bytes().all(|digit| digit.is_ascii_hexdigit());
            char::from_u32(
                u32::from_str_radix(&digits, 16)
                    .ok()
                    .filter(|_| is_number)?,
            )
        }
        _ => None,
    }
}

/// Digits with a sign or a fraction, and no zeros in front.
fn number(letters: &mut Letters) -> Option<String> {
    let mut number = String::new();
    number.extend(letters.next_if_eq(&'-'));
    let whole = digits(letters)?;
    if whole.len() > 1 && whole.starts_with('0') {
        return None;
    }
    number += &whole;
    if let Some(point) = letters.next_if_eq(&'.') {
        number.push(point);
        number += &digits(letters)?;
    }
    Some(number)
}

fn digits(letters: &mut Letters) -> Option<String> {
    let mut digits = String::new();
    while let Some(digit) = letters.next_if(char::is_ascii_digit) {
        digits.push(digit);
    }
    (!digits.is_empty()).then_some(digits)
}

fn pass(letters: &mut Letters, wanted: char) -> Option<()> {
    letters.next_if_eq(&wanted).map(|_| ())
}
