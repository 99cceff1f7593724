//! A file of rows as a person writes it.

use crate::{Fault, Names};

/// The rows of a file, where each of them stands in it, and names for the
/// variables.
#[derive(Clone, Debug, Default, PartialEq, Eq)]
pub struct Rows {
    /// The table, four words to a row.
    pub words: Vec<i32>,
    pub lines: Vec<RowLine>,
    pub names: Names,
}

/// Where a row stands, and what the file says there.
#[derive(Clone, Debug, PartialEq, Eq)]
pub struct RowLine {
    /// The line, from 1.
    pub line: usize,
    /// The whole line but for the space around it.
    pub text: String,
    /// What follows the first `#`, or nothing.
    pub comment: String,
}

impl RowLine {
    /// What the file says of the row.
    pub fn said(&self) -> &str {
        if self.comment.is_empty() {
            &self.text
        } else {
            &self.comment
        }
    }
}

impl Rows {
    /// Reads a whole file; the first line that cannot be read decides.
    pub fn read(file: &str) -> Result<Rows, Fault> {
        let mut rows = Rows::default();
        for (before, line_text) in file.lines().enumerate() {
            let line = before + 1;
            let faulty = |problem| Fault { line, problem };
            rows.add_line(line, line_text.trim()).map_err(faulty)?;
        }
        Ok(rows)
    }

    /// What is told of a row, with its line.
    pub fn shown(&self, row: usize, told: &str) -> String {
        let RowLine { line, text, .. } = &self.lines[row];
        format!("row {row}, line {line}: {told}\n    {text}\n")
    }

    fn add_line(&mut self, line: usize, text: &str) -> Result<(), String> {
        let (content, comment) = text.split_once('#').unwrap_or((text, ""));
        let content = content.trim();
        if content.is_empty() {
            return Ok(());
        }
        if content.starts_with('v') {
            return self.names.add(content);
        }
        let numbers = without_label(content, self.lines.len())?;
        self.words.extend(words_of_row(numbers)?);
        self.lines.push(RowLine {
            line,
            text: text.to_string(),
            comment: comment.trim().to_string(),
        });
        Ok(())
    }
}

/// What follows the label of a row, which must be the row's own number.
fn without_label(content: &str, row: usize) -> Result<&str, String> {
    let Some((label, numbers)) = content.split_once(':') else {
        return Ok(content);
    };
    let label = label.trim();
    if label.parse() == Ok(row) {
        Ok(numbers)
    } else {
        Err(format!("row {row} is labelled `{}`", label.escape_debug()))
    }
}

fn words_of_row(numbers: &str) -> Result<[i32; 4], String> {
    let words: Result<Vec<i32>, String> = numbers.split_whitespace().map(word).collect();
    <[i32; 4]>::try_from(words?).map_err(|words| {
        let found = words.len();
        format!("a row is four numbers (kind first second third), and here are {found}")
    })
}

fn word(text: &str) -> Result<i32, String> {
    text.parse().map_err(|_| {
        let (least, greatest) = (i32::MIN, i32::MAX);
        let is_comment =
            text.starts_with("--") && !text.ends_with(|end: char| end.is_ascii_digit());
        let comment = if is_comment {
            "; a comment begins with #"
        } else {
            ""
        };
        let text = text.escape_debug();
        format!("`{text}` is no whole number from {least} to {greatest}{comment}")
    })
}

#[cfg(test)]
mod tests {
    use super::*;

    fn words(text: &str) -> Vec<i32> {
        Rows::read(text).unwrap().words
    }

    fn fault(text: &str) -> (usize, String) {
        let fault = Rows::read(text).unwrap_err();
        (fault.line, fault.problem)
    }

    #[test]
    fn rows_are_read_with_and_without_labels() {
        let text = "1 0 0 0\n 1: 2 0 0 0\n2:19 0 1 0\n";
        assert_eq!(words(text), [1, 0, 0, 0, 2, 0, 0, 0, 19, 0, 1, 0]);
    }

    #[test]
    fn comments_blank_lines_and_line_ends_of_all_sorts_are_passed_over() {
        let text = "# one\r\n\r\n\t1  -5\t0 0 # 2: no row # 3\r\n   \n#\n";
        assert_eq!(words(text), [1, -5, 0, 0]);
        assert_eq!(words("1 2 3 4#close"), [1, 2, 3, 4]);
    }

    #[test]
    fn no_rows_are_an_empty_table() {
        assert_eq!(Rows::read(""), Ok(Rows::default()));
        assert_eq!(words("# nothing\n\n"), []);
    }

    #[test]
    fn a_row_keeps_its_line_and_its_comment() {
        let rows = Rows::read("# head\n\n  0: 1 7 0 0  #  seven\n1 8 0 0\n").unwrap();
        let row = |line, text: &str, comment: &str| RowLine {
            line,
            text: text.to_string(),
            comment: comment.to_string(),
        };
        let lines = [
            row(3, "0: 1 7 0 0  #  seven", "seven"),
            row(4, "1 8 0 0", ""),
        ];
        assert_eq!(rows.lines, lines);
    }

    #[test]
    fn every_word_of_32_bits_is_read_and_no_other() {
        let text = "-2147483648 2147483647 0 0";
        assert_eq!(words(text), [i32::MIN, i32::MAX, 0, 0]);
        let range = "is no whole number from -2147483648 to 2147483647";
        for wrong in [
            "2147483648",
            "-2147483649",
            "x",
            "1.5",
            "0x10",
            "1,",
            "--1",
            "−1",
        ] {
            let text = format!("# head\n1 {wrong} 0 0\n");
            assert_eq!(fault(&text), (2, format!("`{wrong}` {range}")));
        }
    }

    #[test]
    fn who_writes_dashes_for_a_comment_is_told() {
        for text in ["-- the countdown", "1 0 0 0 -- one", "--the countdown"] {
            let (line, problem) = fault(text);
            assert!(
                line == 1 && problem.ends_with("; a comment begins with #"),
                "{problem}"
            );
        }
    }

    #[test]
    fn a_row_has_four_numbers() {
        let told = |found| {
            format!("a row is four numbers (kind first second third), and here are {found}")
        };
        assert_eq!(fault("1 0 0"), (1, told(3)));
        assert_eq!(fault("\n1 0 0 0 0"), (2, told(5)));
        assert_eq!(fault("0:"), (1, told(0)));
    }

    #[test]
    fn a_label_is_the_number_of_its_row() {
        assert_eq!(
            fault("0: 1 0 0 0\n2: 1 0 0 0"),
            (2, "row 1 is labelled `2`".to_string())
        );
        assert_eq!(
            fault("a: 1 0 0 0"),
            (1, "row 0 is labelled `a`".to_string())
        );
        assert_eq!(fault(": 1 0 0 0"), (1, "row 0 is labelled ``".to_string()));
    }
}
