//! A run as a page, which needs nothing from outside.

use std::collections::BTreeMap;

use evaluator::Name;

use super::{Change, End, Scene, Start, Step};
use crate::table::Statement;
use crate::{Json, Source};

const TEMPLATE: &str = include_str!("page.html");

/// The most steps that are shown to those who run no scripts.
const PLAIN: usize = 1_000;

/// What a page shows of a run.
pub struct Page<'a> {
    pub scene: &'a Scene<'a>,
    /// What the file is called, and what it holds.
    pub name: &'a str,
    pub file: &'a [u8],
    pub start: &'a Start,
    pub steps: &'a [Step],
    pub end: &'a End,
}

impl Page<'_> {
    pub fn text(&self) -> String {
        let mut pieces = TEMPLATE.split("{{");
        let mut text = pieces.next().unwrap_or_default().to_string();
        for piece in pieces {
            let (name, rest) = piece.split_once("}}").unwrap_or(("", piece));
            text += &self.part(name);
            text += rest;
        }
        text
    }

    /// What stands for a name in the template.
    fn part(&self, name: &str) -> String {
        let kept = if self.end.is_kept() { "good" } else { "bad" };
        match name {
            "title" => escaped(self.name),
            "head" => escaped(&self.scene.head(self.start)),
            "code" => self.code(),
            "kept" => kept.to_string(),
            "end" => escaped(&self.scene.end(self.end)),
            "plain" => escaped(&self.plain()),
            "run" => self.json().to_string().replace('<', "\\u003c"),
            _ => String::new(),
        }
    }

    /// The lines of the file; comments stand back.
    fn code(&self) -> String {
        let file = String::from_utf8_lossy(self.file);
        let file = file.strip_prefix('\u{feff}').unwrap_or(&file);
        let line = |line: &str| match line.trim_start().starts_with('#') {
            true => format!("<li class=\"header\">{}</li>\n", escaped(line)),
            false => format!("<li>{}</li>\n", escaped(line)),
        };
        file.lines().map(line).collect()
    }

    /// The lines of the steps, for those who run no scripts; of a long run the first and
    /// the last.
    fn plain(&self) -> String {
        let count = self.steps.len();
        let width = count.to_string().len();
        let lines = self.steps.iter().zip(1..);
        let line = |(step, number)| self.scene.line(number, width, step);
        if count <= PLAIN {
            return lines.map(line).collect();
        }
        let first: String = lines.clone().take(PLAIN / 2).map(line).collect();
        let last: String = lines.skip(count - PLAIN / 2).map(line).collect();
        format!("{first}.. {} more steps\n{last}", count - PLAIN)
    }

    /// The start, and what each step changes: statements, variables and loops are named
    /// by their places in lists of their own. What is due at the end is -1 where nothing is.
    fn json(&self) -> Json {
        let table = self.scene.table;
        let rows: BTreeMap<usize, usize> = table.steps().zip(0..).collect();
        let variables: BTreeMap<usize, usize> = table.variables().into_iter().zip(0..).collect();
        let mut loops: Vec<usize> = table.loops().collect();
        loops.sort_by_key(|row| self.scene.source.line(*row));
        let places = Places {
            rows,
            variables,
            loops: loops.iter().copied().zip(0..).collect(),
        };
        let values = places.variables.keys().map(|number| self.variable(*number));
        let statements = places.rows.keys().map(|row| self.statement(*row, &places));
        let loops = loops.iter().map(|row| {
            let mark = Json::text(Name::Mark(*row).to_string());
            Json::List(vec![Json::number(places.rows[row]), mark])
        });
        let steps = self.steps.iter().map(|step| places.step(step));
        let due = self.end.stop.row();
        let due = due.map_or("-1".to_string(), |row| places.rows[&row].to_string());
        Json::object([
            ("place", Json::text(self.scene.place_word())),
            ("values", Json::list(values)),
            ("loops", Json::list(loops)),
            ("statements", Json::list(statements)),
            ("steps", Json::list(steps)),
            ("due", Json::Number(due)),
        ])
    }

    /// A variable: its name, its own, and its value at the start.
    fn variable(&self, number: usize) -> Json {
        let given = self.start.values.iter();
        let mut given = given.filter(|(other, _)| *other == number);
        let value = given.next().map_or(0, |(_, value)| *value);
        let own = Name::Variable(number).to_string();
        let name = self.scene.name(number);
        Json::List(vec![Json::text(name), Json::text(own), exact(value)])
    }

    /// A statement: its line in the file, its text, in how many loops it stands, its
    /// kind, the variable that it sets or the loop that it is, its place as it is told,
    /// and in how many branches and loops it stands.
    fn statement(&self, row: usize, places: &Places) -> Json {
        let table = self.scene.table;
        let (kind, sets) = match table.statement(row) {
            Some(Statement::Assign { variable, .. }) => ("assign", places.variables[&variable]),
            Some(Statement::While { .. }) => ("while", places.loops[&row]),
            Some(Statement::If { .. }) => ("if", 0),
            Some(Statement::Assert { .. }) => ("assert", 0),
            _ => ("skip", 0),
        };
        let line = self.scene.source.line(row);
        let place = match self.scene.source {
            Source::Text(_) => line,
            Source::Rows(_) => row,
        };
        Json::List(vec![
            Json::number(line),
            Json::text(self.scene.said(row)),
            Json::number(table.loops_around(row)),
            Json::text(kind),
            Json::number(sets),
            Json::number(place),
            Json::number(table.depth(row)),
        ])
    }
}

/// Where rows of statements, variables and rows of loops stand in their lists.
struct Places {
    rows: BTreeMap<usize, usize>,
    variables: BTreeMap<usize, usize>,
    loops: BTreeMap<usize, usize>,
}

impl Places {
    /// The statement, and behind it what it has changed: a value, whether a branch's
    /// guard is true, a pass and the variant where a loop goes on, how many passes there
    /// were where it is left.
    fn step(&self, step: &Step) -> Json {
        let changed = match step.change {
            Change::Nothing | Change::Held => Vec::new(),
            Change::Assigned { value, .. } => vec![exact(value)],
            Change::Chosen(is_true) => vec![Json::number(u8::from(is_true))],
            Change::Begun { pass, variant } => {
                vec![Json::number(pass.unwrap_or_default()), exact(variant)]
            }
            Change::Left { passes } => vec![Json::number(passes.unwrap_or_default())],
        };
        let statement = Json::number(self.rows[&step.row]);
        Json::List([vec![statement], changed].concat())
    }
}

/// The most that a number of a page's script holds exactly.
const EXACT: u64 = (1 << 53) - 1;

/// A value that a page's script shows as it is: as text where it is too large.
fn exact(value: i64) -> Json {
    match value.unsigned_abs() <= EXACT {
        true => Json::number(value),
        false => Json::text(value.to_string()),
    }
}

/// Text that is no part of a page's own.
fn escaped(text: &str) -> String {
    let mut escaped = String::new();
    for letter in text.chars() {
        match letter {
            '<' => escaped += "&lt;",
            '>' => escaped += "&gt;",
            '&' => escaped += "&amp;",
            '"' => escaped += "&quot;",
            '\n' | '\t' => escaped.push(letter),
            _ if letter.is_control() => escaped.push(char::REPLACEMENT_CHARACTER),
            _ => escaped.push(letter),
        }
    }
    escaped
}

#[cfg(test)]
mod tests {
    use super::*;

    #[test]
    fn nothing_of_a_text_is_taken_for_a_page() {
        let text = "a < b && \"c\" > d\n\t\u{1b}\u{0}\u{85}é</script>";
        let wanted =
            "a &lt; b &amp;&amp; &quot;c&quot; &gt; d\n\t\u{fffd}\u{fffd}\u{fffd}é&lt;/script&gt;";
        assert_eq!(escaped(text), wanted);
    }

    #[test]
    fn a_value_that_is_too_large_for_a_number_is_text() {
        let told =
            [1 << 53, (1 << 53) - 1, -(1 << 53), i64::MIN].map(|value| exact(value).to_string());
        let wanted = [
            "\"9007199254740992\"",
            "9007199254740991",
            "\"-9007199254740992\"",
            "\"-9223372036854775808\"",
        ];
        assert_eq!(told, wanted);
    }
}
