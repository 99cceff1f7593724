//! A file as a person writes it: the text of a script, or rows.

use leqwarti::Formula;

use crate::{Names, RefusedText, Rows, Text};

#[derive(Clone, Debug, PartialEq, Eq)]
pub enum Source {
    Rows(Rows),
    Text(Text),
}

/// Why there is no table of a file.
#[derive(Clone, Debug, PartialEq, Eq)]
pub enum Unread {
    /// What the command reads by itself: rows, and the header of a text.
    Fault(Fault),
    /// What the proved reader refuses.
    Refused(RefusedText),
}

/// A line that cannot be read.
#[derive(Clone, Debug, PartialEq, Eq)]
pub struct Fault {
    /// The line, from 1.
    pub line: usize,
    pub problem: String,
}

const BYTE_ORDER_MARK: &[u8] = "\u{feff}".as_bytes();

impl Source {
    /// Reads a whole file. Both forms may begin with comments and with names
    /// for the variables; the first other line tells them apart.
    pub fn read(file: &[u8]) -> Result<Source, Unread> {
        let file = file.strip_prefix(BYTE_ORDER_MARK).unwrap_or(file);
        match start_of_text(file) {
            Some(start) => Text::read(file, start).map(Source::Text),
            None => {
                let rows = Rows::read(&String::from_utf8_lossy(file));
                rows.map(Source::Rows).map_err(Unread::Fault)
            }
        }
    }

    /// The table, four words to a row.
    pub fn words(&self) -> &[i32] {
        match self {
            Source::Rows(rows) => &rows.words,
            Source::Text(text) => &text.words,
        }
    }

    /// The line of a row that a condition names, from 1.
    pub fn line(&self, row: usize) -> usize {
        match self {
            Source::Rows(rows) => rows.lines[row].line,
            Source::Text(text) => text.point(row).line,
        }
    }

    /// What the file says at a row that a condition names.
    pub fn said(&self, row: usize) -> String {
        match self {
            Source::Rows(rows) => rows.lines[row].said().to_string(),
            Source::Text(text) => text.head(row),
        }
    }

    /// A formula as the file writes it, in its names.
    pub fn formula(&self, formula: Formula) -> String {
        let written = match self {
            Source::Rows(_) => format!("{formula}"),
            Source::Text(_) => format!("{formula:#}"),
        };
        self.names().put_into(&written)
    }

    pub fn names(&self) -> &Names {
        match self {
            Source::Rows(rows) => &rows.names,
            Source::Text(text) => &text.names,
        }
    }
}

/// Where the first line begins that is no part of a header. None where that line
/// begins as rows do, with a digit or a sign, and where there is no such line: an
/// empty file is an empty table.
fn start_of_text(file: &[u8]) -> Option<usize> {
    let mut start = 0;
    for line in file.split_inclusive(|byte| *byte == b'\n') {
        let line_text = String::from_utf8_lossy(line);
        let content = line_text.trim_matches(BLANKS);
        match content.chars().next() {
            None | Some('#') => start += line.len(),
            Some('v') if Names::has_form(without_comment(content)) => start += line.len(),
            Some('0'..='9' | '+' | '-') => return None,
            Some(_) => return Some(start),
        }
    }
    None
}

/// What is blank in scripts, and so in what stands before them.
const BLANKS: [char; 4] = [' ', '\t', '\r', '\n'];

/// A line of a header up to its comment.
pub fn without_comment(line: &str) -> &str {
    let content = line.split('#').next().unwrap_or_default();
    content.trim_matches(BLANKS)
}

#[cfg(test)]
mod tests {
    use super::*;

    const TEXT: &str = "pre true; skip; post true";

    fn is_text(file: &str) -> bool {
        match Source::read(file.as_bytes()) {
            Ok(source) => matches!(source, Source::Text(_)),
            Err(unread) => matches!(unread, Unread::Refused(_)),
        }
    }

    #[test]
    fn the_first_line_that_is_no_header_tells() {
        for header in ["", "# pre\n", "v0 is x\n\n \t\r\n", "\u{feff}", "#\n#\n"] {
            assert!(is_text(&format!("{header}{TEXT}")), "{header}");
            assert!(is_text(&format!("{header}  \t{TEXT}")), "{header}");
            assert!(!is_text(&format!("{header}16 0 0 0\n")), "{header}");
            assert!(!is_text(&format!("{header} 0: 1 -5 0 0\n")), "{header}");
        }
    }

    #[test]
    fn only_a_digit_or_a_sign_begins_rows() {
        for rows in ["7", "-1 0 0 0", "+0: 16 0 0 0", "1x", "--"] {
            assert!(!is_text(rows), "{rows}");
        }
        for text in ["Pre", "pre", "(", "// no comment", "{", ":", "skip", "é"] {
            assert!(is_text(text), "{text}");
        }
    }

    #[test]
    fn a_line_that_names_no_variable_is_text() {
        for line in [
            "v0 := 1;",
            "v0",
            "v0 is",
            "v0 is two words",
            "v0 = x",
            "v#0 is x",
        ] {
            for rest in [TEXT, "16 0 0 0", "v1 is y"] {
                assert!(is_text(&format!("v7 is z\n{line}\n{rest}")), "{line}");
            }
        }
    }

    /// Other characters are blank elsewhere; a script's text has none of them.
    #[test]
    fn only_what_is_blank_in_scripts_is_blank_before_them() {
        for other in ["\u{b}", "\u{c}", "\u{a0}", "\u{85}", "\u{2028}", "\u{3000}"] {
            for line in [other, "  #", "v0 is x"] {
                let file = format!("# head\n{other}{line}\n{TEXT}");
                let Err(Unread::Refused(text)) = Source::read(file.as_bytes()) else {
                    panic!("{file:?} is read");
                };
                assert_eq!(text.first_line(), "refused 40 7\n");
            }
        }
    }

    #[test]
    fn a_line_ends_with_its_line_feed() {
        let source = Source::read(b"# one\rpre true; skip; post true").unwrap();
        assert_eq!(source.words(), []);
        assert!(is_text("# one\r\n\rpre true; skip; post true"));
    }

    #[test]
    fn nothing_is_an_empty_table() {
        for nothing in ["", "\n", " \r\n\t", "# pre", "v0 is x", "\u{feff}\n"] {
            let source = Source::read(nothing.as_bytes()).unwrap();
            assert!(matches!(source, Source::Rows(_)), "{nothing}");
            assert_eq!(source.words(), []);
        }
    }

    #[test]
    fn both_forms_have_names() {
        for rest in [TEXT, "16 0 0 0"] {
            let file = format!("v3 is x # the third\n{rest}");
            let source = Source::read(file.as_bytes()).unwrap();
            assert_eq!(source.names().put_into("v3 < v30"), "x < v30");
        }
    }
}
