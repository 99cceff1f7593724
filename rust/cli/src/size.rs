//! What a caller of the library lends at least, to have a script's conditions listed.

use leqwarti::{scratch_words, Plan};

use crate::Json;

/// How long the runs are that a caller lends for a script, in words.
#[derive(Clone, Copy, Debug, PartialEq, Eq)]
pub struct Size {
    pub table: usize,
    pub list: usize,
    pub scratch: usize,
    rows: usize,
    conditions: usize,
}

impl Size {
    /// Of a table, and of its plan.
    pub fn of(table: &[i32], plan: &Plan) -> Size {
        let rows = table.len() / 4;
        Size {
            table: table.len(),
            list: plan.words().len(),
            scratch: scratch_words(rows),
            rows,
            conditions: plan.conditions().len(),
        }
    }

    /// A line for each run, their numbers in one column.
    pub fn text(&self) -> String {
        let conditions = match self.conditions {
            1 => "1 condition".to_string(),
            conditions => format!("{conditions} conditions"),
        };
        let runs = [
            ("table", self.table, format!(" ({} rows)", self.rows)),
            ("list", self.list, format!(" ({conditions})")),
            ("scratch", self.scratch, String::new()),
        ];
        let widths = runs.iter().map(|(_, words, _)| words.to_string().len());
        let width = widths.max().unwrap_or_default();
        let line = |(name, words, of)| format!("{name:7}  {words:width$} words{of}\n");
        runs.into_iter().map(line).collect()
    }

    pub fn json(&self) -> Json {
        Json::object([
            ("verdict", Json::text("planned")),
            ("rows", Json::number(self.rows)),
            ("table", Json::number(self.table)),
            ("conditions", Json::number(self.conditions)),
            ("list", Json::number(self.list)),
            ("scratch", Json::number(self.scratch)),
        ])
    }
}

#[cfg(test)]
mod tests {
    use super::*;

    fn size_of(script: &str) -> Size {
        let table = leqwarti::read_text(script.as_bytes()).unwrap();
        Size::of(&table, &leqwarti::plan(&table).unwrap())
    }

    #[test]
    fn one_condition_is_no_conditions() {
        let size = size_of("pre true; skip; post true");
        let text = "\
table    16 words (4 rows)
list      8 words (1 condition)
scratch   8 words
";
        assert_eq!(size.text(), text);
        let json =
            r#"{"verdict":"planned","rows":4,"table":16,"conditions":1,"list":8,"scratch":8}"#;
        assert_eq!(size.json().to_string(), json);
    }

    #[test]
    fn numbers_stand_in_one_column() {
        let branch = "if v1 < 3 then v0 := v0 + 1 else v0 := v0 + 2 end; ";
        let size = size_of(&format!("pre 0 <= v0; {}post 0 <= v0", branch.repeat(8)));
        let text = "\
table      440 words (110 rows)
list     11005 words (1 condition)
scratch    220 words
";
        assert_eq!(size.text(), text);
    }
}
