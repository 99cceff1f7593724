//! How a run ends, and what is true there.

use evaluator::{Evaluator, FalsePart, State, Whole};
use leqwarti::{Formula, Stop};

use super::cause::{Cause, Workings};
use super::Trace;
use crate::table::{Statement, Table};

/// Whether a formula is true in a state.
#[derive(Clone, Debug, PartialEq, Eq)]
pub enum Truth {
    True,
    /// With the words of the part that is false, and the values of its sides, where it
    /// compares.
    False {
        part: Vec<i32>,
        sides: Option<[Whole; 2]>,
    },
    /// Its numbers get so long that nobody waits for them.
    TooLong,
}

impl Truth {
    pub fn of(words: &[i32], state: &State) -> Truth {
        let evaluator = Evaluator::of(Formula::new(words)).expect("the words spell a formula");
        match evaluator.truth(state) {
            Some(true) => Truth::True,
            Some(false) => {
                let part = evaluator.false_part(state);
                let FalsePart { formula, sides } = part.expect("the formula is false");
                let part = formula.words().to_vec();
                Truth::False { part, sides }
            }
            None => Truth::TooLong,
        }
    }

    /// Of a row of a table.
    pub fn at(table: &Table, row: usize, state: &State) -> Truth {
        Truth::of(&table.spelled(row), state)
    }
}

/// Where a run has come to, and why it goes no further.
#[derive(Clone, Debug, PartialEq, Eq)]
pub struct End {
    pub stop: Stop,
    pub steps: u64,
    pub state: State,
    /// Of the postcondition where the run has ended, and of an assertion that is false.
    pub truth: Option<Truth>,
    /// Where it divides by zero or leaves 64 bits.
    pub cause: Option<Cause>,
}

impl End {
    /// Of a run that has stopped.
    pub fn of(table: &Table, trace: &Trace, stop: Stop) -> End {
        let state = trace.state();
        let workings = Workings {
            table,
            state: &state,
        };
        let statement = stop.row().and_then(|row| table.statement(row));
        let truth = match (stop, statement) {
            (Stop::Ended, _) => Some(table.script().postcondition),
            (Stop::AssertionFalse { .. }, Some(Statement::Assert { formula })) => Some(formula),
            _ => None,
        };
        let cause = statement.and_then(|statement| match stop {
            Stop::DividedByZero { .. } => workings.zero_divisor(statement),
            Stop::TooLarge { .. } => workings.too_large(statement),
            _ => None,
        });
        End {
            stop,
            steps: trace.machine().steps(),
            truth: truth.map(|row| Truth::at(table, row, &state)),
            cause,
            state,
        }
    }

    /// Whether the run has ended, and the postcondition is true there.
    pub fn is_kept(&self) -> bool {
        self.stop == Stop::Ended && self.truth == Some(Truth::True)
    }
}
