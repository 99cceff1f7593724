//! A run as it is told: its steps in aligned lines, and how it ends.

use std::collections::{BTreeMap, BTreeSet};

use evaluator::{Name, State};
use leqwarti::{Formula, Stop};

use super::cause::Cause;
use super::{Change, End, Start, Step, Truth};
use crate::proof::part_with_sides;
use crate::table::{Statement, Table};
use crate::Source;

/// The statements of a script as its file has them.
pub struct Scene<'a> {
    pub source: &'a Source,
    pub table: &'a Table<'a>,
    statements: BTreeMap<usize, Told>,
    /// Of the widest line or row, and of the widest statement.
    widths: [usize; 2],
}

/// How a statement is told.
struct Told {
    /// Its line, or its row in a file of rows.
    place: usize,
    /// On one line, a loop or a branch by its head.
    said: String,
    /// The same, no longer than fits beside others, behind two blanks for each branch
    /// and loop that it stands in.
    shown: String,
}

/// The most letters of a statement in a line of steps.
const WIDEST: usize = 44;

impl<'a> Scene<'a> {
    pub fn of(source: &'a Source, table: &'a Table<'a>) -> Scene<'a> {
        let told = |row| (row, Told::of(source, table, row));
        let statements: BTreeMap<usize, Told> = table.steps().map(told).collect();
        let widest = |width: fn(&Told) -> usize| {
            let widths = statements.values().map(width);
            widths.max().unwrap_or_default()
        };
        let widths = [
            widest(|told| told.place.to_string().len()),
            widest(|told| told.shown.chars().count()),
        ];
        Scene {
            source,
            table,
            statements,
            widths,
        }
    }

    /// Where a statement stands, as `line 7` or `row 15`.
    pub fn place(&self, row: usize) -> String {
        format!("{} {}", self.place_word(), self.statements[&row].place)
    }

    /// What a place is counted in.
    pub fn place_word(&self) -> &'static str {
        match self.source {
            Source::Text(_) => "line",
            Source::Rows(_) => "row",
        }
    }

    /// A statement on one line.
    pub fn said(&self, row: usize) -> &str {
        &self.statements[&row].said
    }

    /// A line for a step, its number as wide as is asked for.
    pub fn line(&self, number: u64, width: usize, step: &Step) -> String {
        let Told { place, shown, .. } = &self.statements[&step.row];
        let ([place_width, shown_width], change) = (self.widths, self.change(&step.change));
        let place = format!("{} {place:place_width$}", self.place_word());
        let line = format!("{number:width$}  {place}  {shown:shown_width$}  {change}");
        format!("{}\n", line.trim_end())
    }

    /// What a step has changed.
    pub fn change(&self, change: &Change) -> String {
        match change {
            Change::Nothing => String::new(),
            Change::Held | Change::Chosen(true) => "true".to_string(),
            Change::Chosen(false) => "false".to_string(),
            Change::Assigned { variable, value } => format!("{} = {value}", self.name(*variable)),
            Change::Begun {
                pass: Some(pass),
                variant,
            } => format!("true: pass {pass}, variant {variant}"),
            Change::Begun {
                pass: None,
                variant,
            } => format!("true: a pass, variant {variant}"),
            Change::Left { passes: Some(1) } => "false: left after 1 pass".to_string(),
            Change::Left {
                passes: Some(passes),
            } => format!("false: left after {passes} passes"),
            Change::Left { passes: None } => "false: left".to_string(),
        }
    }

    /// A variable as the file calls it.
    pub fn name(&self, variable: usize) -> String {
        let name = Name::Variable(variable).to_string();
        self.source.names().put_into(&name)
    }

    /// The values that are given, and what is 0 because it is not; nothing where there
    /// are neither.
    pub fn start(&self, start: &Start) -> String {
        let given = start.values.iter();
        let given: Vec<String> = given
            .map(|(number, value)| format!("{} = {value}", self.name(*number)))
            .collect();
        let others = self.table.variables().into_iter();
        let others = others.filter(|number| !start.is_given(*number));
        let others: Vec<String> = others.map(|number| self.name(number)).collect();
        let (given, others) = (given.join(", "), others.join(", "));
        match (given.is_empty(), others.is_empty()) {
            (true, true) => String::new(),
            (false, true) => format!("start: {given}\n"),
            (true, false) => format!("start: 0, as not given: {others}\n"),
            (false, false) => format!("start: {given}; 0, as not given: {others}\n"),
        }
    }

    /// That a start does not meet the precondition, where it does not.
    pub fn warning(&self, state: &State) -> String {
        let row = self.table.script().precondition;
        match Truth::at(self.table, row, state) {
            Truth::True => String::new(),
            truth @ Truth::False { .. } => {
                let part = self.false_part(&truth);
                format!(
                    "the start does not meet the precondition, so nothing is promised of this run\n{part}"
                )
            }
            Truth::TooLong => {
                "whether the start meets the precondition is not known: its numbers get too long\n"
                    .to_string()
            }
        }
    }

    /// How a run ends, with the values of the variables, and why.
    pub fn end(&self, end: &End) -> String {
        let word = match end.stop {
            Stop::Ended => "ended",
            Stop::AssertionFalse { .. } | Stop::DividedByZero { .. } => "failed",
            Stop::TooLarge { .. } | Stop::LimitSpent { .. } => "stopped",
        };
        let (steps, values) = (steps_text(end.steps), self.values(&end.state));
        let with = if values.is_empty() { "" } else { " with " };
        let (reason, marks) = (self.reason(end), self.marks(end));
        format!("{word} after {steps}{with}{values}\n{reason}{marks}")
    }

    /// What the marks are in the part that is to blame, and their values.
    fn marks(&self, end: &End) -> String {
        let words = match (&end.truth, &end.cause) {
            (Some(Truth::False { part, .. }), _) => part.clone(),
            (None, Some(Cause::TooLarge { part, .. })) => self.table.spelled(*part),
            _ => Vec::new(),
        };
        let told = |row: usize| {
            let (name, place) = (Name::Mark(row), self.place(row));
            let value = end.state.get(name);
            format!("    {name} = {value}: the variant of the loop in {place} when the present pass began\n")
        };
        marks_in(&words).into_iter().map(told).collect()
    }

    /// The values of the variables that are not frozen.
    pub fn values(&self, state: &State) -> String {
        let is_frozen = |number: &usize| (128..256).contains(number);
        let variables = self.table.variables().into_iter();
        let values = variables.filter(|number| !is_frozen(number)).map(|number| {
            let value = state.get(Name::Variable(number));
            format!("{} = {value}", self.name(number))
        });
        values.collect::<Vec<_>>().join(", ")
    }

    /// Why a run goes no further: of its end whether the postcondition is true, of
    /// others the statement, and the part of it that is to blame.
    pub fn reason(&self, end: &End) -> String {
        let place = |row| format!("{}, {}", self.place(row), self.said(row));
        let told = match end.stop {
            Stop::Ended => match &end.truth {
                Some(Truth::True) => "the postcondition is true".to_string(),
                Some(Truth::False { .. }) => "the postcondition is false".to_string(),
                _ => "whether the postcondition is true is not known: its numbers get too long"
                    .to_string(),
            },
            Stop::AssertionFalse { row } => format!("{}: the assertion is false", place(row)),
            Stop::DividedByZero { row } => {
                let what = match self.table.statement(row) {
                    Some(Statement::Assign { .. }) => "the assigned expression",
                    _ => "the guard",
                };
                format!("{}: {what} divides by zero", place(row))
            }
            Stop::TooLarge { row } => format!("{}: a value leaves 64 bits", place(row)),
            Stop::LimitSpent { row } => {
                format!("{}: is due, and the limit is spent", place(row))
            }
        };
        format!("{told}\n{}", self.part(end))
    }

    /// The part of a formula that is false, where it is.
    pub fn false_part(&self, truth: &Truth) -> String {
        match truth {
            Truth::False { part, sides } => {
                let part = part_with_sides(self.source, part, sides.as_ref());
                format!("    {part}\n")
            }
            Truth::True | Truth::TooLong => String::new(),
        }
    }

    /// The part that is false, divides by zero or is too large, where there is one.
    fn part(&self, end: &End) -> String {
        let part = match (&end.truth, &end.cause) {
            (Some(truth), _) => return self.false_part(truth),
            (_, Some(Cause::ZeroDivisor { whole, divisor })) => {
                let [whole, divisor] = [*whole, *divisor].map(|row| self.expression(row));
                format!("{whole}, where {divisor} = 0")
            }
            (_, Some(Cause::TooLarge { part, value })) => {
                format!("{} = {value}", self.expression(*part))
            }
            _ => return String::new(),
        };
        format!("    {part}\n")
    }

    fn expression(&self, row: usize) -> String {
        self.source.formula(Formula::new(&self.table.spelled(row)))
    }
}

impl Told {
    fn of(source: &Source, table: &Table, row: usize) -> Told {
        let place = match source {
            Source::Text(_) => source.line(row),
            Source::Rows(_) => row,
        };
        let said = said(source, table, row);
        let indent = "  ".repeat(table.depth(row));
        let shown = format!("{indent}{}", shortened(&said));
        Told { place, said, shown }
    }
}

/// A statement on one line, as a text has it; of rows, whose comments may say anything,
/// what the table has.
fn said(source: &Source, table: &Table, row: usize) -> String {
    let spelled = |row| source.formula(Formula::new(&table.spelled(row)));
    let statement = table.statement(row);
    match statement.filter(|_| matches!(source, Source::Rows(_))) {
        Some(Statement::Skip) => "skip".to_string(),
        Some(Statement::Assign { variable, value }) => {
            let variable = Name::Variable(variable).to_string();
            let variable = source.names().put_into(&variable);
            format!("{variable} := {}", spelled(value))
        }
        Some(Statement::If { guard, .. }) => format!("if {}", spelled(guard)),
        Some(Statement::While { guard, .. }) => format!("while {}", spelled(guard)),
        Some(Statement::Assert { formula }) => format!("assert {}", spelled(formula)),
        Some(Statement::Sequence { .. }) | None => source.said(row).replace(char::is_control, " "),
    }
}

/// The rows of the loops whose marks a formula or an expression has.
fn marks_in(words: &[i32]) -> BTreeSet<usize> {
    let mut marks = BTreeSet::new();
    let mut words = words.iter();
    while let Some(kind) = words.next() {
        let number = match *kind {
            CONSTANT | VARIABLE | MARK => words.next(),
            _ => None,
        };
        marks.extend(number.filter(|_| *kind == MARK).map(|row| *row as usize));
    }
    marks
}

const CONSTANT: i32 = 1;
const VARIABLE: i32 = 2;
const MARK: i32 = 9;

/// The front of a text that is too long.
fn shortened(text: &str) -> String {
    match text.chars().count() {
        length if length <= WIDEST => text.to_string(),
        _ => {
            let front: String = text.chars().take(WIDEST - 2).collect();
            format!("{}..", front.trim_end())
        }
    }
}

pub fn steps_text(steps: u64) -> String {
    match steps {
        1 => "1 step".to_string(),
        _ => format!("{steps} steps"),
    }
}
