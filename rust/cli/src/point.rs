//! A place in a text, as an editor counts it.

use std::fmt;

/// Lines and columns count from 1; a tab is one column.
#[derive(Clone, Debug, PartialEq, Eq)]
pub struct Point {
    pub line: usize,
    pub column: usize,
    line_text: Vec<char>,
}

/// The most columns of a line that are shown, and how many of them before the
/// place where the line is longer.
const WIDTH: usize = 100;
const BEFORE: usize = 60;

impl Point {
    /// The point of a byte before which its line is ASCII.
    pub fn of(text: &[u8], place: usize) -> Point {
        let is_end = |byte: &u8| *byte == b'\n';
        let (before, after) = text.split_at(place);
        let start = before.iter().rposition(is_end).map_or(0, |end| end + 1);
        let end = after.iter().position(is_end);
        let line_text = &text[start..end.map_or(text.len(), |length| place + length)];
        Point {
            line: 1 + before.iter().filter(|byte| is_end(byte)).count(),
            column: 1 + place - start,
            line_text: String::from_utf8_lossy(line_text).chars().collect(),
        }
    }

    /// The line, or what of a long one stands around the place, and under the
    /// place a caret.
    pub fn shown(&self) -> String {
        let (place, length) = (self.column - 1, self.line_text.len());
        let from = if length <= WIDTH {
            0
        } else {
            place.saturating_sub(BEFORE)
        };
        let to = length.min(from + WIDTH);
        let [left, right] = [from > 0, to < length].map(|is_cut| if is_cut { ".." } else { "" });
        let part: String = self.line_text[from..to].iter().map(printable).collect();
        let under: String = self.line_text[from..place].iter().map(blank).collect();
        let under_left = " ".repeat(left.len());
        let line = format!("{left}{part}{right}");
        format!("    {}\n    {under_left}{under}^\n", line.trim_end())
    }
}

impl fmt::Display for Point {
    fn fmt(&self, f: &mut fmt::Formatter) -> fmt::Result {
        write!(f, "line {}, column {}", self.line, self.column)
    }
}

/// A character that moves no cursor, but for the tab.
fn printable(letter: &char) -> char {
    match letter {
        '\r' => ' ',
        '\t' => '\t',
        _ if letter.is_control() => char::REPLACEMENT_CHARACTER,
        _ => *letter,
    }
}

/// What is as wide as the character, and blank.
fn blank(letter: &char) -> char {
    if *letter == '\t' {
        '\t'
    } else {
        ' '
    }
}

#[cfg(test)]
mod tests {
    use super::*;

    fn point(text: &[u8], place: usize) -> (String, String) {
        let point = Point::of(text, place);
        (point.to_string(), point.shown())
    }

    fn told(place: &str, shown: &str) -> (String, String) {
        (place.to_string(), shown.to_string())
    }

    #[test]
    fn a_caret_stands_under_the_place() {
        let text = b"first\n  second line\r\nthird";
        assert_eq!(
            point(text, 0),
            told("line 1, column 1", "    first\n    ^\n")
        );
        assert_eq!(
            point(text, 15),
            told("line 2, column 10", "      second line\n             ^\n")
        );
        assert_eq!(
            point(text, text.len()),
            told("line 3, column 6", "    third\n         ^\n")
        );
        assert_eq!(point(b"", 0), told("line 1, column 1", "    \n    ^\n"));
    }

    #[test]
    fn a_tab_is_one_column_and_as_wide_below() {
        let shown = "    \ta\t b\n    \t \t ^\n";
        assert_eq!(point(b"\ta\t b", 4), told("line 1, column 5", shown));
    }

    #[test]
    fn what_is_no_text_is_shown_as_such() {
        let shown = "    a\u{fffd}\u{fffd} \u{fffd}\u{fffd}\n     ^\n";
        assert_eq!(
            point(b"a\x1b\x07\r\x80\xff\r\n", 1),
            told("line 1, column 2", shown)
        );
    }

    #[test]
    fn of_a_long_line_a_part_is_shown() {
        let text = "0123456789".repeat(20);
        let part = |from: usize| text[from..from + 100].to_string();
        let caret = |column: usize| " ".repeat(column) + "^";
        for (place, line, column) in [
            (0, part(0) + "..", 0),
            (60, part(0) + "..", 60),
            (61, format!("..{}..", part(1)), 62),
            (140, format!("..{}..", part(80)), 62),
            (160, format!("..{}", part(100)), 62),
            (200, format!("..{}", &text[140..]), 62),
        ] {
            let shown = format!("    {line}\n    {}\n", caret(column));
            assert_eq!(Point::of(text.as_bytes(), place).shown(), shown, "{place}");
        }
        let short = "x".repeat(100);
        let shown = format!("    {short}\n    {}\n", caret(100));
        assert_eq!(Point::of(short.as_bytes(), 100).shown(), shown);
    }
}
