//! The numbers that a solver gives for constants.

use std::collections::BTreeSet;

use super::Values;

const MOST_DIGITS: usize = 10_000;

/// Reads `((v0 5) (m15 (- 3)))`, with one value for each of the names and none
/// for another; nothing for any other text.
pub fn values(text: &[u8], names: &BTreeSet<String>) -> Option<Values> {
    let mut tokens = Tokens(std::str::from_utf8(text).ok()?);
    let mut values = Values::new();
    tokens.pass("(")?;
    loop {
        match tokens.next()? {
            "(" => {
                let (name, value) = pair(&mut tokens)?;
                if !names.contains(name) || values.insert(name.to_string(), value).is_some() {
                    return None;
                }
            }
            ")" => break,
            _ => return None,
        }
    }
    let is_whole = tokens.next().is_none() && values.len() == names.len();
    is_whole.then_some(values)
}

/// What follows the opening bracket of a name and its value, the closing one
/// included.
fn pair<'a>(tokens: &mut Tokens<'a>) -> Option<(&'a str, String)> {
    let name = tokens.next()?;
    let value = match tokens.next()? {
        "(" => negative(tokens)?,
        digits => decimal(digits)?,
    };
    tokens.pass(")")?;
    Some((name, value))
}

/// What follows the opening bracket of `(- 3)`.
fn negative(tokens: &mut Tokens) -> Option<String> {
    tokens.pass("-")?;
    let value = match decimal(tokens.next()?)?.as_str() {
        "0" => "0".to_string(),
        digits => format!("-{digits}"),
    };
    tokens.pass(")")?;
    Some(value)
}

/// Digits without zeros in front, not more than can be checked.
fn decimal(text: &str) -> Option<String> {
    let is_number = text.bytes().all(|byte| byte.is_ascii_digit());
    let digits = match text.trim_start_matches('0') {
        "" => "0",
        digits => digits,
    };
    (is_number && digits.len() <= MOST_DIGITS).then(|| digits.to_string())
}

/// The brackets and words of a text.
struct Tokens<'a>(&'a str);

impl<'a> Iterator for Tokens<'a> {
    type Item = &'a str;

    fn next(&mut self) -> Option<&'a str> {
        let text = self.0.trim_ascii_start();
        let ends_word = |letter: char| letter.is_ascii_whitespace() || "()".contains(letter);
        let length = match text.chars().next()? {
            '(' | ')' => 1,
            _ => text.find(ends_word).unwrap_or(text.len()),
        };
        let (token, rest) = text.split_at(length);
        self.0 = rest;
        Some(token)
    }
}

impl Tokens<'_> {
    fn pass(&mut self, expected: &str) -> Option<()> {
        (self.next()? == expected).then_some(())
    }
}

#[cfg(test)]
mod tests {
    use super::*;

    /// The values of `v0` and `m15`.
    fn read(text: &str) -> Option<[String; 2]> {
        let names = BTreeSet::from(["v0", "m15"].map(String::from));
        let mut values = values(text.as_bytes(), &names)?;
        assert_eq!(values.len(), 2);
        Some(["v0", "m15"].map(|name| values.remove(name).unwrap()))
    }

    #[test]
    fn values_are_read_over_any_lines_and_in_any_order() {
        for text in [
            "((v0 5) (m15 (- 3)))",
            "((v0 5)\n (m15 (- 3)))\n",
            "((m15 (- 3)) (v0 5))",
            "((v0 5)(m15(- 3)))",
            " \r\n(\n(\nv0\n5\n)\n(\tm15 (\n-\n3 ) )\n)\r\n\n",
            "((v0 005) (m15 (- 0003)))",
        ] {
            assert_eq!(read(text), Some(["5", "-3"].map(String::from)), "{text}");
        }
    }

    #[test]
    fn a_number_has_some_thousand_digits_at_most() {
        let read_digits = |count| read(&format!("((v0 {}) (m15 1))", "9".repeat(count)));
        assert_eq!(read_digits(10_000).unwrap()[0].len(), 10_000);
        assert_eq!(read_digits(10_001), None);
    }

    #[test]
    fn zero_has_one_form() {
        for zero in ["0", "00", "(- 0)", "(- 000)"] {
            let text = format!("((v0 {zero}) (m15 10))");
            assert_eq!(read(&text), Some(["0", "10"].map(String::from)), "{text}");
        }
    }

    #[test]
    fn a_number_has_any_size() {
        let digits = "1234567890".repeat(1_000);
        let text = format!("((v0 {digits}) (m15 (- {digits})))");
        assert_eq!(read(&text), Some([digits.clone(), format!("-{digits}")]));
    }

    #[test]
    fn each_name_has_one_value_and_no_other_has_any() {
        for text in [
            "",
            "()",
            "((v0 5))",
            "((v0 5) (v0 5))",
            "((v0 5) (m15 1) (v0 5))",
            "((v0 5) (m15 1) (v1 5))",
            "((v0 5) (m16 1))",
            "((v0 5) (|m15| 1))",
        ] {
            assert_eq!(read(text), None, "{text}");
        }
        assert_eq!(values(b"()", &BTreeSet::new()), Some(Values::new()));
        assert_eq!(values(b"((v0 5))", &BTreeSet::new()), None);
    }

    #[test]
    fn only_whole_numbers_are_values() {
        for value in [
            "-5",
            "+5",
            "5.0",
            "(/ 1 2)",
            "(- 5 3)",
            "(-5)",
            "(- (- 5))",
            "(- -5)",
            "(-)",
            "(- )",
            "",
            "x",
            "#b101",
            "0x5",
            "5 6",
            "(5)",
            "()",
            "٥",
            "5_0",
            "(- 5.0)",
            "true",
            "(+ 5)",
        ] {
            let text = format!("((v0 {value}) (m15 1))");
            assert_eq!(read(&text), None, "{text}");
        }
    }

    #[test]
    fn nothing_stands_around_or_between_the_values() {
        for text in [
            "((v0 5) (m15 1)",
            "((v0 5) (m15 1",
            "((v0 5) (m15 (- 1",
            "(v0 5) (m15 1)",
            "((v0 5) (m15 1)))",
            "((v0 5) (m15 1)) sat",
            "unsat ((v0 5) (m15 1))",
            "((v0 5) , (m15 1))",
            "((v0 5)\u{a0}(m15 1))",
            "((v0 5) (m15 1)) é",
            "é",
            "(error \"line 5: no model\")",
        ] {
            assert_eq!(read(text), None, "{text}");
        }
        assert_eq!(
            values(b"((v0 5) \xff)", &BTreeSet::from(["v0".to_string()])),
            None
        );
        assert_eq!(
            values(b"((v0 5)", &BTreeSet::from(["v0".to_string()])),
            None
        );
    }

    #[test]
    fn brackets_without_end_are_no_values() {
        assert_eq!(read(&"(".repeat(1_000_000)), None);
    }
}
