//! "Meaning of a run": the script of an accepted table, run from a start.

use crate::check::{check, Verdict};
use crate::evaluate::{
    formula_is_true, value_of, worked_out_truth, worked_out_value, NoValue, State, TooLarge,
};
use crate::table::Row;
use crate::tree::{script_of, Loop, Statement};

/// How a run came to its end, or why it was broken off.
#[derive(Clone, Copy, Debug, PartialEq, Eq)]
pub enum End {
    /// "the script's statement is done"
    Done,
    /// "where false the run stops there as failed", with the row of the assert.
    Failed(Row),
    /// Request P5: "a guard or assigned expression that works out a div or mod
    /// by zero is a failed run".
    DividedByZero,
    /// The steps allowed were used up; the run itself would go on.
    OutOfSteps,
    /// A value left the range of `i128`; the run itself would go on, or meet a
    /// zero divisor behind that value.
    TooLarge,
}

/// "An arrival at a while is its beginning as a statement, not a later test
/// after its body."
#[derive(Clone, Copy, Debug, PartialEq, Eq)]
pub struct Arrival {
    /// The row of the while.
    pub row: Row,
    /// The variant's value at the arrival; nothing where it is too large.
    pub variant: Option<i128>,
    /// "A body begun counts, finished or not, up to the time its loop is left."
    pub bodies_begun: u64,
}

/// A run with the state it left and its arrivals in order.
#[derive(Clone, Debug, PartialEq, Eq)]
pub struct Run {
    pub end: End,
    pub state: State,
    pub arrivals: Vec<Arrival>,
}

/// Runs the script of an accepted table for at most `max_steps` steps; the
/// refusal where the table is not accepted. A step is a statement begun or a
/// guard tested.
pub fn run(words: &[i32], start: &State, max_steps: u64) -> Result<Run, Verdict> {
    run_observed(words, start, max_steps, &mut |_| ())
}

/// `run`, showing the start and every state after it to `observer`.
pub fn run_observed(
    words: &[i32],
    start: &State,
    max_steps: u64,
    observer: &mut dyn FnMut(&State),
) -> Result<Run, Verdict> {
    let verdict = check(words);
    if verdict != Verdict::Accepted {
        return Err(verdict);
    }
    let script = script_of(words);
    let state = start.clone();
    observer(&state);
    let mut runner = Runner {
        state,
        steps_left: max_steps,
        arrivals: Vec::new(),
        observer,
    };
    let end = match runner.statement(&script.statement) {
        Ok(()) => End::Done,
        Err(end) => end,
    };
    Ok(Run {
        end,
        state: runner.state,
        arrivals: runner.arrivals,
    })
}

impl From<TooLarge> for End {
    fn from(_: TooLarge) -> End {
        End::TooLarge
    }
}

impl From<NoValue> for End {
    fn from(reason: NoValue) -> End {
        match reason {
            NoValue::ZeroDivisor => End::DividedByZero,
            NoValue::TooLarge => End::TooLarge,
        }
    }
}

struct Runner<'a> {
    state: State,
    steps_left: u64,
    arrivals: Vec<Arrival>,
    observer: &'a mut dyn FnMut(&State),
}

impl Runner<'_> {
    fn statement(&mut self, statement: &Statement) -> Result<(), End> {
        self.step()?;
        match statement {
            Statement::Skip => Ok(()),
            Statement::Assign(variable, assigned) => {
                let value = worked_out_value(assigned, &self.state)?;
                self.state.set_variable(*variable, value);
                (self.observer)(&self.state);
                Ok(())
            }
            Statement::Sequence(first, second) => {
                self.statement(first)?;
                self.statement(second)
            }
            Statement::If(guard, then, otherwise) => {
                let taken = if worked_out_truth(guard, &self.state)? {
                    then
                } else {
                    otherwise
                };
                self.statement(taken)
            }
            // "in annotations 01's totals stay"
            Statement::Assert(row, assertion) => {
                if formula_is_true(assertion, &self.state)? {
                    Ok(())
                } else {
                    Err(End::Failed(*row))
                }
            }
            Statement::While(the_loop) => self.while_loop(the_loop),
        }
    }

    /// "it tests its guard. True: its mark takes the variant's value, the body
    /// runs, and it tests again. False: the loop is left."
    fn while_loop(&mut self, the_loop: &Loop) -> Result<(), End> {
        let arrival = self.arrivals.len();
        let variant = value_of(&the_loop.variant, &self.state).ok();
        self.arrivals.push(Arrival {
            row: the_loop.row,
            variant,
            bodies_begun: 0,
        });
        while worked_out_truth(&the_loop.guard, &self.state)? {
            let value = value_of(&the_loop.variant, &self.state)?;
            self.state.set_mark(the_loop.row, value);
            (self.observer)(&self.state);
            self.arrivals[arrival].bodies_begun += 1;
            self.statement(&the_loop.body)?;
            self.step()?;
        }
        Ok(())
    }

    fn step(&mut self) -> Result<(), End> {
        self.steps_left = self.steps_left.checked_sub(1).ok_or(End::OutOfSteps)?;
        Ok(())
    }
}
