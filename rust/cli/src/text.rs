//! A script's text in a file, after a header of comments and names.

use std::collections::BTreeMap;

use crate::source::without_comment;
use crate::tokens::{row_places, tokens};
use crate::{Fault, Names, Point, RefusedText, Unread};

/// The table of a text, where its rows stand, and names for the variables.
#[derive(Clone, Debug, PartialEq, Eq)]
pub struct Text {
    /// The table, four words to a row.
    pub words: Vec<i32>,
    pub names: Names,
    file: Vec<u8>,
    /// The bytes of the file where rows begin.
    places: BTreeMap<usize, usize>,
}

/// What follows a head. No formula or expression has any of it.
const BEHIND_HEADS: [&[u8]; 5] = [b"keep", b";", b"then", b"else", b"end"];

impl Text {
    /// Reads a file in which the text stands from `start` on. The proved reader
    /// gets the text alone; places are those of the file.
    pub fn read(file: &[u8], start: usize) -> Result<Text, Unread> {
        let (header, script) = file.split_at(start);
        let names = names_of(header).map_err(Unread::Fault)?;
        let file = file.to_vec();
        match leqwarti::read_text(script) {
            Ok(words) => {
                let mut places = row_places(script, &words);
                places.values_mut().for_each(|place| *place += start);
                Ok(Text {
                    words,
                    names,
                    file,
                    places,
                })
            }
            Err(refusal) => Err(Unread::Refused(RefusedText {
                refusal,
                names,
                file,
                start,
            })),
        }
    }

    /// Whether it is known where the row begins: so it is of the rows that a
    /// condition, a refusal with 8 or 9 or a step of a run names.
    pub fn has_place(&self, row: usize) -> bool {
        self.places.contains_key(&row)
    }

    /// Where a row begins that has a place.
    pub fn point(&self, row: usize) -> Point {
        Point::of(&self.file, self.places[&row])
    }

    /// A loop up to its invariant, a branch up to its sides, the script up to its
    /// statement, or another statement whole, in the names that the header gives.
    pub fn head(&self, row: usize) -> String {
        let rest = &self.file[self.places[&row]..];
        let head = tokens(rest)
            .into_iter()
            .take_while(|token| !BEHIND_HEADS.contains(&token.text));
        let length = head.last().map_or(0, |last| last.place + last.text.len());
        let head = String::from_utf8_lossy(&rest[..length]);
        let words: Vec<&str> = head.split_ascii_whitespace().collect();
        self.names.put_into(&words.join(" "))
    }
}

/// The names that a header gives.
fn names_of(header: &[u8]) -> Result<Names, Fault> {
    let mut names = Names::default();
    for (before, text) in String::from_utf8_lossy(header).lines().enumerate() {
        let content = without_comment(text);
        let line = before + 1;
        if !content.is_empty() {
            let faulty = |problem| Fault { line, problem };
            names.add(content).map_err(faulty)?;
        }
    }
    Ok(names)
}

#[cfg(test)]
mod tests {
    use super::*;
    use crate::Source;

    fn text(file: &str) -> Text {
        match Source::read(file.as_bytes()).unwrap() {
            Source::Text(text) => text,
            Source::Rows(rows) => panic!("{rows:?}"),
        }
    }

    #[test]
    fn a_header_changes_no_row_and_no_place_after_it() {
        let script = "pre true;\n\tskip; v128 := 1;\npost true";
        let bare = leqwarti::read_text(script.as_bytes()).unwrap();
        for header in ["", "# one\r\n\r\n  # größe\n", "v0 is x # pre\n#\n"] {
            let text = text(&format!("{header}{script}"));
            assert_eq!(text.words, bare);
            let point = text.point(3);
            let line = 2 + header.lines().count();
            assert_eq!((point.line, point.column), (line, 8), "{header}");
        }
    }

    #[test]
    fn a_head_is_one_line() {
        let text = text(
            "pre\r\n true\n;\nwhile v0 < 1  and\n\t(v1 < 2) keep true fall 1 do skip end; post true",
        );
        let [script, while_loop] = [48, 36].map(|kind| {
            let mut kinds = text.words.iter().step_by(4);
            text.head(kinds.position(|word| *word == kind).unwrap())
        });
        assert_eq!(script, "pre true");
        assert_eq!(while_loop, "while v0 < 1 and (v1 < 2)");
    }

    #[test]
    fn a_statement_ends_where_its_branch_or_its_loop_goes_on() {
        let text = text(
            "v0 is x\npre true; if v0\n< 1 then v0 := when(true, v0, 1) else assert 0  < v0 end; \
             while true keep true fall 1 do skip end; post true",
        );
        let heads = [35, 33, 38, 36, 32].map(|kind| {
            let mut kinds = text.words.iter().step_by(4);
            text.head(kinds.position(|word| *word == kind).unwrap())
        });
        let wanted = [
            "if x < 1",
            "x := when(true, x, 1)",
            "assert 0 < x",
            "while true",
            "skip",
        ];
        assert_eq!(heads, wanted);
    }

    #[test]
    fn a_wrong_line_of_the_header_is_told() {
        let file = "# head\nv0 is x2\npre true; skip; post true";
        let Err(Unread::Fault(fault)) = Source::read(file.as_bytes()) else {
            panic!("the header is read");
        };
        assert_eq!(fault.line, 2);
        assert!(fault.problem.starts_with("`x2` is no name"));
    }
}
