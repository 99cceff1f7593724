//! JSON, as far as it is written here.

use std::fmt::{self, Display, Write};

/// A value for other programs; its `Display` has no blanks and no line breaks.
#[derive(Clone, Debug)]
pub enum Json {
    Text(String),
    /// Its digits.
    Number(String),
    List(Vec<Json>),
    Object(Vec<(String, Json)>),
}

impl Display for Json {
    fn fmt(&self, f: &mut fmt::Formatter) -> fmt::Result {
        match self {
            Json::Text(text) => write_text(f, text),
            Json::Number(digits) => f.write_str(digits),
            Json::List(items) => write_items(f, ['[', ']'], items, |f, item| write!(f, "{item}")),
            Json::Object(fields) => write_items(f, ['{', '}'], fields, |f, (name, value)| {
                write_text(f, name)?;
                write!(f, ":{value}")
            }),
        }
    }
}

fn write_items<T>(
    f: &mut fmt::Formatter,
    [open, close]: [char; 2],
    items: &[T],
    write: impl Fn(&mut fmt::Formatter, &T) -> fmt::Result,
) -> fmt::Result {
    f.write_char(open)?;
    for (before, item) in items.iter().enumerate() {
        if before > 0 {
            f.write_char(',')?;
        }
        write(f, item)?;
    }
    f.write_char(close)
}

fn write_text(f: &mut fmt::Formatter, text: &str) -> fmt::Result {
    f.write_char('"')?;
    for letter in text.chars() {
        match letter {
            '"' | '\\' => write!(f, "\\{letter}")?,
            '\n' => f.write_str("\\n")?,
            _ if letter.is_control() => write!(f, "\\u{:04x}", u32::from(letter))?,
            _ => f.write_char(letter)?,
        }
    }
    f.write_char('"')
}

impl Json {
    pub fn text(text: impl Into<String>) -> Json {
        Json::Text(text.into())
    }

    pub fn number(number: impl Display) -> Json {
        Json::Number(number.to_string())
    }

    pub fn list(items: impl Iterator<Item = Json>) -> Json {
        Json::List(items.collect())
    }

    pub fn object<const N: usize>(fields: [(&str, Json); N]) -> Json {
        Json::Object(fields.map(|(name, value)| (name.to_string(), value)).into())
    }

    /// Why there is no answer: the number, and the row or the byte, by its name.
    pub fn refusal(number: u8, (place, at): (&str, usize), text: String) -> Json {
        Json::object([
            ("verdict", Json::text("refused")),
            ("number", Json::number(number)),
            (place, Json::number(at)),
            ("text", Json::text(text)),
        ])
    }

    /// An object with one more field.
    pub fn with(self, name: &str, value: Json) -> Json {
        match self {
            Json::Object(mut fields) => {
                fields.push((name.to_string(), value));
                Json::Object(fields)
            }
            other => other,
        }
    }
}

#[cfg(test)]
mod tests {
    use super::*;

    #[test]
    fn every_sort_of_value_is_written() {
        let list = Json::List(vec![Json::number(-7), Json::text(""), Json::List(vec![])]);
        let object = Json::object([("a", list), ("b", Json::Object(vec![]))]);
        let object = object.with("c", Json::number("0.50"));
        assert_eq!(object.to_string(), r#"{"a":[-7,"",[]],"b":{},"c":0.50}"#);
    }

    #[test]
    fn no_letter_breaks_out_of_a_text() {
        let text = Json::text("a\"b\\c\n\r\t\u{0}\u{7f}ü");
        assert_eq!(text.to_string(), r#""a\"b\\c\n\u000d\u0009\u0000\u007fü""#);
    }
}
