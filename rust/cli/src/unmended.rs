//! Why a table is not mended, for its writer.

use leqwarti::{Reason, Refusal};

use crate::{Json, Rows};

/// A table that the mender refuses.
#[derive(Clone, Debug, PartialEq, Eq)]
pub struct Unmended {
    pub rows: Rows,
    pub refusal: Refusal,
}

const WHILE: i32 = 36;

impl Unmended {
    /// What is wrong and where, and what can be done.
    pub fn text(&self) -> String {
        let Refusal { reason, row } = self.refusal;
        let (number, words, advice) = (reason.number(), self.words(), self.advice());
        let told = match reason.has_row() {
            true => self.rows.shown(row, &words),
            false => format!("{words}\n"),
        };
        format!("refused {number} {row}\n{told}{advice}\n")
    }

    pub fn json(&self) -> Json {
        let Refusal { reason, row } = self.refusal;
        Json::refusal(reason.number(), ("row", row), self.text())
    }

    fn words(&self) -> String {
        match self.refusal.reason {
            Reason::TableLength if self.rows.words.is_empty() => "the file has no rows".to_string(),
            Reason::LooseRow => "the last row is no script".to_string(),
            Reason::MarkOutsideBody => self.words_of_mark(),
            Reason::MendedTooLong => "the new table would have more than 2,048 rows".to_string(),
            reason => reason.words().to_string(),
        }
    }

    fn words_of_mark(&self) -> String {
        let named = self.named_by_mark();
        let line = self.rows.lines[named].line;
        match self.names_loop() {
            true => format!(
                "a use of the mark is not inside the body of its loop (row {named}, line {line})"
            ),
            false => format!("the mark names row {named} (line {line}), which is no loop"),
        }
    }

    /// The row that the refused mark names.
    fn named_by_mark(&self) -> usize {
        self.rows.words[4 * self.refusal.row + 1] as usize
    }

    fn names_loop(&self) -> bool {
        self.rows.words[4 * self.named_by_mark()] == WHILE
    }

    fn advice(&self) -> &'static str {
        match self.refusal.reason {
            Reason::TableLength if self.rows.words.is_empty() => {
                "./vcgen --help shows how rows are written"
            }
            Reason::TableLength => "take away what the script does not use, or make two scripts of it",
            Reason::LooseRow => {
                "the script (kind 48) has to be the last row: move it there, or take away what follows it"
            }
            Reason::MarkOutsideBody if self.names_loop() => {
                "a loop's guard, invariant and variant are not in its body; what stands outside has to \
                 do without this mark, in rows of its own"
            }
            Reason::MarkOutsideBody => {
                "a mark names the row of a loop (kind 36), and stands in that loop's body"
            }
            Reason::MendedTooLong => {
                "every use of a shared row becomes a copy of it and of all its parts, so sharing \
                 within shared rows multiplies: share less there, or make two scripts of it"
            }
            _ => "mend copies shared rows and drops unused ones; all else has to be right before",
        }
    }
}
