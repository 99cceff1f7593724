//! A run, step by step.

use std::collections::BTreeMap;

use evaluator::{Name, State, Whole};
use leqwarti::{Machine, Stop};

use crate::table::{Statement, Table};

/// A run that is watched.
pub struct Trace<'a> {
    table: &'a Table<'a>,
    machine: Machine<'a>,
    /// How many passes each loop has begun in whose body the run is; not known where
    /// the run was there before it was watched.
    passes: BTreeMap<usize, Option<u64>>,
}

/// A step that is done: the row of its statement, and what it has changed.
#[derive(Clone, Copy, Debug, PartialEq, Eq)]
pub struct Step {
    pub row: usize,
    pub change: Change,
}

#[derive(Clone, Copy, Debug, PartialEq, Eq)]
pub enum Change {
    Nothing,
    /// An assertion is true.
    Held,
    Assigned {
        variable: usize,
        value: i64,
    },
    /// A branch's guard is true, or it is not.
    Chosen(bool),
    /// A loop's guard is true: its mark is set to the variant's value, and a pass begins.
    Begun {
        pass: Option<u64>,
        variant: i64,
    },
    /// A loop's guard is false, after so many passes.
    Left {
        passes: Option<u64>,
    },
}

impl<'a> Trace<'a> {
    /// From the start of a run.
    pub fn start(table: &'a Table<'a>, machine: Machine<'a>) -> Trace<'a> {
        Trace {
            table,
            machine,
            passes: BTreeMap::new(),
        }
    }

    /// From the midst of one, in the bodies of loops.
    pub fn within(table: &'a Table<'a>, machine: Machine<'a>) -> Trace<'a> {
        let is_loop = |row: &usize| matches!(table.statement(*row), Some(Statement::While { .. }));
        let loops = machine.stack().filter(is_loop);
        let passes = loops.map(|row| (row, None)).collect();
        Trace {
            table,
            machine,
            passes,
        }
    }

    pub fn machine(&self) -> &Machine<'a> {
        &self.machine
    }

    /// Does the step that is due, or says why there is none.
    pub fn step(&mut self) -> Result<Step, Stop> {
        let row = self.machine.step()?;
        let next = self.machine.stack().next_back();
        let change = match self.table.statement(row) {
            Some(Statement::Assign { variable, .. }) => Change::Assigned {
                variable,
                value: self.machine.variable(variable),
            },
            Some(Statement::If { then, .. }) => Change::Chosen(next == Some(then)),
            Some(Statement::While { body, .. }) if next == Some(body) => Change::Begun {
                pass: self.pass(row),
                variant: self.machine.mark(row),
            },
            Some(Statement::While { .. }) => Change::Left {
                passes: self.passes.remove(&row).unwrap_or(Some(0)),
            },
            Some(Statement::Assert { .. }) => Change::Held,
            _ => Change::Nothing,
        };
        Ok(Step { row, change })
    }

    /// The number of the pass that a loop begins, from 1.
    fn pass(&mut self, row: usize) -> Option<u64> {
        let passes = self.passes.entry(row).or_insert(Some(0));
        *passes = passes.map(|passes| passes + 1);
        *passes
    }

    /// The values of all that occurs in the script.
    pub fn state(&self) -> State {
        let whole = |(name, value): (Name, i64)| (name, Whole::from(value));
        let variables = self.table.variables().into_iter();
        let variables =
            variables.map(|number| (Name::Variable(number), self.machine.variable(number)));
        let marks = self.table.loops();
        let marks = marks.map(|row| (Name::Mark(row), self.machine.mark(row)));
        variables.chain(marks).map(whole).collect()
    }
}
