//! A table with shared rows written anew, as a file of rows.

use std::mem::replace;

use leqwarti::{Mended, Refusal};

use crate::{Json, RowLine, Rows, Unmended};

/// The rows of a file, and the table in which no row is shared and none left over.
#[derive(Clone, Debug, PartialEq, Eq)]
pub struct MendedRows {
    old: Rows,
    new: Mended,
}

impl MendedRows {
    pub fn of(old: Rows) -> Result<MendedRows, Unmended> {
        match leqwarti::mend(&old.words) {
            Ok(new) => Ok(MendedRows { old, new }),
            Err(refusal) => Err(Unmended { rows: old, refusal }),
        }
    }

    /// A file of rows: what became of the old ones as comments, the names, and the
    /// new rows with what was said of the old ones.
    pub fn text(&self) -> String {
        let parts = [self.head(), self.old.names.lines(), self.rows()];
        let parts: Vec<String> = parts.into_iter().filter(|part| !part.is_empty()).collect();
        parts.join("\n")
    }

    /// The table for other programs, with the old row of each new one.
    pub fn json(&self) -> Json {
        let rows = self.new.table.chunks(4);
        let rows = rows.map(|row| Json::list(row.iter().map(Json::number)));
        let json = Json::object([
            ("verdict", Json::text("mended")),
            ("rows", Json::list(rows)),
            (
                "origins",
                Json::list(self.new.origins.iter().map(Json::number)),
            ),
            ("dropped", Json::number(self.new.dropped)),
            ("copied", Json::number(self.new.copied)),
        ]);
        match self.refusal() {
            Some(refusal) => json.with("refusal", self.refusal_json(&refusal)),
            None => json,
        }
    }

    /// What is still wrong with the new table, in one line.
    pub fn warning(&self) -> Option<String> {
        self.refusal().map(|refusal| self.told(&refusal))
    }

    /// Why the new table has no conditions: its numbers are 8 and above.
    fn refusal(&self) -> Option<Refusal> {
        leqwarti::plan(&self.new.table).err()
    }

    fn refusal_json(&self, refusal: &Refusal) -> Json {
        Json::object([
            ("number", Json::number(refusal.reason.number())),
            ("row", Json::number(refusal.row)),
            ("text", Json::text(self.told(refusal))),
        ])
    }

    fn told(&self, refusal: &Refusal) -> String {
        let Refusal { reason, row } = *refusal;
        let place = match reason.has_row() {
            true => {
                let old = self.new.origins[row];
                let line = self.old.lines[old].line;
                format!(" at row {row} (old row {old}, line {line})")
            }
            false => String::new(),
        };
        let (number, words) = (reason.number(), reason.words());
        format!("the new table is still refused, with {number}{place}: {words}")
    }

    fn head(&self) -> String {
        let lines = [vec![self.summary()], self.copied(), self.dropped()].concat();
        lines.iter().map(|line| format!("# {line}\n")).collect()
    }

    fn summary(&self) -> String {
        let (old, new) = (self.old.lines.len(), self.new.origins.len());
        match (self.new.dropped, self.new.copied) {
            _ if self.new.table == self.old.words => {
                "nothing to mend: the rows are as they were".to_string()
            }
            (0, 0) => format!("mended: {old} rows in another order"),
            (dropped, copied) => format!(
                "mended: {old} rows, less {dropped} dropped, plus {copied} copied again: {new} rows"
            ),
        }
    }

    fn copied(&self) -> Vec<String> {
        let copied = self.uses().filter(|(_, _, uses)| *uses > 1);
        let copied = copied.map(|(row, line, uses)| {
            let times = match uses - 1 {
                1 => "once".to_string(),
                times => format!("{times} times"),
            };
            format!("  row {row}, line {}, {times}: {}", line.line, said(line))
        });
        titled("copied again:", copied)
    }

    fn dropped(&self) -> Vec<String> {
        let dropped = self.uses().filter(|(_, _, uses)| *uses == 0);
        let dropped = dropped
            .map(|(row, line, _)| format!("  row {row}, line {}: {}", line.line, said(line)));
        titled("dropped, not used by the script:", dropped)
    }

    /// Each old row, where it stands, and how many new rows come from it.
    fn uses(&self) -> impl Iterator<Item = (usize, &RowLine, usize)> {
        let mut uses = vec![0; self.old.lines.len()];
        for old in &self.new.origins {
            uses[*old] += 1;
        }
        let rows = self.old.lines.iter().enumerate().zip(uses);
        rows.map(|((row, line), uses)| (row, line, uses))
    }

    fn rows(&self) -> String {
        let label_width = (self.new.origins.len() - 1).to_string().len();
        let numbers: Vec<String> = self.new.table.chunks(4).map(numbers).collect();
        let width = numbers.iter().map(String::len).max().unwrap_or_default();
        let rows = numbers.iter().zip(self.comments()).enumerate();
        rows.map(|(row, (numbers, comment))| {
            format!("{row:label_width$}: {numbers:width$}  # {comment}\n")
        })
        .collect()
    }

    /// What was said of the old row of each new one, and which it was.
    fn comments(&self) -> Vec<String> {
        let mut is_copied = vec![false; self.old.lines.len()];
        let comment = |old: &usize| {
            let again = match replace(&mut is_copied[*old], true) {
                true => ", again",
                false => "",
            };
            let origin = format!("old row {old}{again}");
            match without_origin(&self.old.lines[*old].comment) {
                "" => origin,
                said => format!("{said} ({origin})"),
            }
        };
        self.new.origins.iter().map(comment).collect()
    }
}

fn numbers(row: &[i32]) -> String {
    let [kind, first, second, third] = [row[0], row[1], row[2], row[3]];
    format!("{kind:2} {first} {second} {third}")
}

/// Lines after their title; none where there are none.
fn titled(title: &str, lines: impl Iterator<Item = String>) -> Vec<String> {
    let lines: Vec<String> = lines.collect();
    match lines.is_empty() {
        true => lines,
        false => [vec![title.to_string()], lines].concat(),
    }
}

/// What a file says of a row.
fn said(line: &RowLine) -> &str {
    match without_origin(&line.comment) {
        "" => &line.text,
        said => said,
    }
}

/// A comment without the old row that an earlier mending has put into it.
fn without_origin(comment: &str) -> &str {
    let bracketed = comment.strip_suffix(')');
    match bracketed.and_then(|comment| comment.rsplit_once(" (")) {
        Some((said, origin)) if is_origin(origin) => said,
        _ if is_origin(comment) => "",
        _ => comment,
    }
}

fn is_origin(text: &str) -> bool {
    let row = text.strip_prefix("old row ");
    let row = row.map(|row| row.strip_suffix(", again").unwrap_or(row));
    row.is_some_and(|row| !row.is_empty() && row.bytes().all(|digit| digit.is_ascii_digit()))
}

#[cfg(test)]
mod tests {
    use super::*;

    fn mended(file: &str) -> String {
        MendedRows::of(Rows::read(file).unwrap()).unwrap().text()
    }

    /// `true` is precondition and postcondition, and 7 is left over.
    const SHARED: &str = "v7 is seven\n16 0 0 0 # true\n1 7 0 0\n32 0 0 0\nv0 is zero\n48 0 2 0\n";

    #[test]
    fn a_mended_table_is_a_file_of_rows() {
        let expected = "\
# mended: 4 rows, less 1 dropped, plus 1 copied again: 4 rows
# copied again:
#   row 0, line 2, once: true
# dropped, not used by the script:
#   row 1, line 3: 1 7 0 0

v0 is zero
v7 is seven

0: 16 0 0 0  # true (old row 0)
1: 32 0 0 0  # old row 2
2: 16 0 0 0  # true (old row 0, again)
3: 48 0 1 2  # old row 3
";
        assert_eq!(mended(SHARED), expected);
    }

    #[test]
    fn what_is_mended_stays_as_it_is() {
        let expected = "\
# nothing to mend: the rows are as they were

v0 is zero
v7 is seven

0: 16 0 0 0  # true (old row 0)
1: 32 0 0 0  # old row 1
2: 16 0 0 0  # true (old row 2)
3: 48 0 1 2  # old row 3
";
        let again = mended(&mended(SHARED));
        assert_eq!(again, expected);
        assert_eq!(mended(&again), expected);
    }

    #[test]
    fn rows_in_another_order_are_none_more_and_none_less() {
        let text = mended("32 0 0 0\n16 0 0 0\n17 0 0 0\n48 2 0 1");
        let expected = "\
# mended: 4 rows in another order

0: 17 0 0 0  # old row 2
1: 32 0 0 0  # old row 0
2: 16 0 0 0  # old row 1
3: 48 0 1 2  # old row 3
";
        assert_eq!(text, expected);
    }

    #[test]
    fn wide_rows_have_their_comments_in_one_column() {
        let text = mended("16 0 0 0\n1 -2147483648 0 0\n33 1023 1 0#wide\n48 0 2 0");
        let rows: Vec<&str> = text.lines().skip(4).collect();
        let expected = [
            "0: 16 0 0 0            # old row 0",
            "1:  1 -2147483648 0 0  # old row 1",
            "2: 33 1023 1 0         # wide (old row 2)",
            "3: 16 0 0 0            # old row 0, again",
            "4: 48 0 2 3            # old row 3",
        ];
        assert_eq!(rows, expected);
    }

    #[test]
    fn only_what_mending_has_put_there_is_taken_from_a_comment() {
        for (comment, wanted) in [
            ("x (old row 7)", "x"),
            ("x (old row 2047, again)", "x"),
            ("old row 7", ""),
            ("old row 7, again", ""),
            ("x (y) (old row 7)", "x (y)"),
            ("x (old row)", "x (old row)"),
            ("x (old row )", "x (old row )"),
            ("x (old row y)", "x (old row y)"),
            ("x (old row 7, agains)", "x (old row 7, agains)"),
            ("x old row 7", "x old row 7"),
            ("(x)", "(x)"),
            ("", ""),
        ] {
            assert_eq!(without_origin(comment), wanted, "{comment}");
        }
    }
}
