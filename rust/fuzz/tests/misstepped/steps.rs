//! Steps, done wrongly.

use fuzz::LentRuns;

use super::values::{Place, ValueFault, Values};
use super::StepFault::{self, *};
use super::{put, Row};

pub struct Machine<'a> {
    fault: StepFault,
    rows: &'a [Row],
    pub stack: Vec<u32>,
    /// The most words that the stack has had.
    pub tallest: usize,
    pub variables: Vec<i64>,
    pub marks: Vec<i64>,
    /// What is counted beside whole steps.
    counted: u64,
    is_marked: Vec<u32>,
}

/// No script that is tried takes as many steps where it ends.
const MOST_ROUNDS: u64 = 10_000;

/// What a run that does not end is answered with.
const ENDLESS: u8 = 99;

const SKIP: Row = [32, 0, 0, 0];

/// A step is counted or is not.
type Stepped = Result<bool, u8>;

impl<'a> Machine<'a> {
    pub fn new(fault: StepFault, rows: &'a [Row], stack: Vec<u32>, lent: &LentRuns) -> Machine<'a> {
        Machine {
            fault,
            rows,
            tallest: stack.len(),
            stack,
            variables: lent.variables.to_vec(),
            marks: lent.marks.to_vec(),
            counted: 0,
            is_marked: Vec::new(),
        }
    }

    /// Number, row and whole steps.
    pub fn go(&mut self, limit: u64) -> (u8, usize, u64) {
        let limit = match self.fault {
            LimitOneEarly => limit.saturating_sub(1),
            LimitOneLate => limit.saturating_add(1),
            LimitOf32Bits => u64::from(limit as u32),
            NoLimitIsZero if limit == 0 => u64::MAX,
            _ => limit,
        };
        if let Err(number) = self.boundary(0) {
            return (number, self.rows.len() - 1, 0);
        }
        let mut steps = 0;
        for _ in 0..MOST_ROUNDS {
            let is_spent = steps == limit;
            let Some(&top) = self.stack.last() else {
                if let Err(number) = self.boundary(2) {
                    return (number, self.rows.len() - 1, steps);
                }
                let is_late = is_spent && self.fault == SpentBeforeEnded;
                return (if is_late { 54 } else { 0 }, 0, steps);
            };
            let (due, split) = self.due(top);
            let row = match self.fault {
                RowOfTheSequence => top,
                OtherWordsHaveNoRow if !self.is_statement(due) => 0,
                _ => due,
            } as usize;
            if is_spent && self.fault != FailureBeforeSpent {
                if self.fault == SplitAtTheLimit {
                    self.replace_top(&split, &[due]);
                }
                return (54, row, steps);
            }
            let before = (
                self.stack.clone(),
                self.variables.clone(),
                self.marks.clone(),
            );
            match self.step(due, &split) {
                Err(number) => {
                    if self.fault == SplitOnFailure {
                        self.replace_top(&split, &[due]);
                    }
                    let is_counted = self.fault == FailingStepCounted;
                    return (number, row, steps + u64::from(is_counted) + self.counted);
                }
                Ok(_) if is_spent => {
                    (self.stack, self.variables, self.marks) = before;
                    return (54, row, steps);
                }
                Ok(is_step) => steps += u64::from(is_step) + std::mem::take(&mut self.counted),
            }
            self.tallest = self.tallest.max(self.stack.len());
            if self.fault == SplitAtOnce {
                self.split_top();
            }
        }
        (ENDLESS, 0, steps)
    }

    fn values(&self) -> Values<'_> {
        let fault = match self.fault {
            OfValues(fault) => fault,
            _ => ValueFault::Nothing,
        };
        Values {
            rows: self.rows,
            variables: &self.variables,
            marks: &self.marks,
            fault,
        }
    }

    /// Works the precondition or the postcondition out, which no run does.
    fn boundary(&self, field: usize) -> Result<(), u8> {
        let is_meant = match field {
            0 => self.fault == PreconditionWorkedOut,
            _ => self.fault == PostconditionWorkedOut,
        };
        let [_, pre, _, post] = self.rows[self.rows.len() - 1];
        let formula = if field == 0 { pre } else { post };
        if is_meant && !self.values().is_true(formula, Place::Assertion)? {
            return Err(52);
        }
        Ok(())
    }

    /// The row of a statement, or a skip.
    fn row(&self, word: u32) -> Row {
        let word = match self.fault {
            WordsOf16Bits => word & 0xFFFF,
            WordsOf11Bits => word & 0x7FF,
            _ => word,
        };
        let is_statement = |row: &Row| matches!(row[0], 32..=36 | 38);
        let row = self.rows.get(word as usize).copied();
        let script = self.rows[self.rows.len() - 1];
        match row {
            Some(row) if !is_statement(&row) && self.fault == OtherRowsAreTheScript => {
                self.rows[script[2] as usize]
            }
            _ => row.filter(is_statement).unwrap_or(SKIP),
        }
    }

    fn is_statement(&self, word: u32) -> bool {
        let row = self.rows.get(word as usize);
        row.is_some_and(|row| matches!(row[0], 32..=36 | 38))
    }

    /// What is due where this word is on top, and what takes its place below that.
    fn due(&mut self, top: u32) -> (u32, Vec<u32>) {
        let (mut due, mut split) = (top, Vec::new());
        while let [34, first, second, _] = self.row(due) {
            let (first, second) = match self.fault {
                SecondPartFirst => (second, first),
                _ => (first, second),
            };
            split.push(second as u32);
            due = first as u32;
        }
        (due, split)
    }

    fn split_top(&mut self) {
        if let Some(&top) = self.stack.last() {
            let (due, split) = self.due(top);
            self.replace_top(&split, &[due]);
        }
    }

    fn replace_top(&mut self, split: &[u32], on_top: &[u32]) {
        self.stack.pop();
        self.stack.extend(split);
        self.tallest = self.tallest.max(self.stack.len());
        self.stack.extend(on_top);
        if self.fault == SequencesCounted {
            self.counted += split.len() as u64;
        }
    }

    fn step(&mut self, due: u32, split: &[u32]) -> Stepped {
        let [kind, first, second, third] = self.row(due);
        match kind {
            33 => {
                self.assign(first, second)?;
                self.replace_top(split, &[]);
                Ok(true)
            }
            35 => {
                let is_true = self.values().is_true(first, Place::Code)?;
                let is_true = is_true != (self.fault == ElseForThen);
                let taken = if is_true { second } else { third };
                self.replace_top(split, &[taken as u32]);
                Ok(self.fault != BranchIsNoStep)
            }
            36 => self.test_guard(due, [first, second, third], split),
            38 => {
                let is_true = self.values().is_true(first, Place::Assertion)?;
                if !is_true && self.fault != FalseAssertionPasses {
                    return Err(if self.fault == AssertionIs53 { 53 } else { 52 });
                }
                self.replace_top(split, &[]);
                Ok(self.fault != AssertionIsNoStep)
            }
            _ => self.skip(due, split),
        }
    }

    fn skip(&mut self, due: u32, split: &[u32]) -> Stepped {
        let is_other = !self.is_statement(due);
        if is_other && self.fault == OtherWordsStop {
            return Err(52);
        }
        self.replace_top(split, &[]);
        Ok(match self.fault {
            SkipIsNoStep => is_other,
            OtherWordsAreNoStep => !is_other,
            _ => true,
        })
    }

    fn assign(&mut self, variable: i32, assigned: i32) -> Result<(), u8> {
        let place = match self.fault {
            NextVariableAssigned => (variable + 1) % 1_024,
            VariableOfTheLowByteAssigned => variable % 256,
            _ => variable,
        } as usize;
        let value = self.values().value(assigned, Place::Code);
        if value.is_err() && self.fault == AssignedOnFailure {
            put(&mut self.variables, place, 0);
        }
        put(&mut self.variables, place, value?);
        Ok(())
    }

    fn test_guard(&mut self, due: u32, [guard, note, body]: [i32; 3], split: &[u32]) -> Stepped {
        let [_, invariant, variant, _] = self.rows[note as usize];
        let works_out = |machine: &Self| machine.values().value(variant, Place::Variant);
        if self.fault == MarkBeforeTheGuard {
            let value = works_out(self)?;
            put(&mut self.marks, due as usize, value);
        }
        if self.fault == InvariantWorkedOut
            && !self.values().is_true(invariant, Place::Assertion)?
        {
            return Err(52);
        }
        let is_true = self.values().is_true(guard, Place::Code)?;
        if !is_true {
            if matches!(self.fault, VariantWhereTheGuardIsFalse | MarkSetWhenLeft) {
                let value = works_out(self)?;
                if self.fault == MarkSetWhenLeft {
                    put(&mut self.marks, due as usize, value);
                }
            }
            self.replace_top(split, &[]);
            return Ok(self.fault != LeavingIsNoStep);
        }
        let value = works_out(self)?;
        self.set_mark(due, note, value);
        let on_top: &[u32] = match self.fault {
            LoopLeftAfterAPass => &[body as u32],
            LoopBeforeItsBody => &[body as u32, due],
            _ => &[due, body as u32],
        };
        self.replace_top(split, on_top);
        self.counted += u64::from(self.fault == MarkIsAStep);
        Ok(true)
    }

    fn set_mark(&mut self, due: u32, note: i32, value: i64) {
        let is_first = !self.is_marked.contains(&due);
        self.is_marked.push(due);
        let (place, value) = match self.fault {
            MarkNotSet => return,
            MarkSetOnce if !is_first => return,
            MarkOfTheNote => (note as usize, value),
            MarkOneLess => (due as usize, value.wrapping_sub(1)),
            _ => (due as usize, value),
        };
        put(&mut self.marks, place, value);
    }
}
