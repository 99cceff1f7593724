//! A stepping machine with one fault (request P11). It is written by itself: the reference's
//! has no place for faults.

mod steps;
mod values;

use fuzz::{Answer, LentRuns, Reference, RunAnswer, Subject};
use reference::{Line, Verdict};

use steps::Machine;
pub use values::ValueFault;

type Row = [i32; 4];

fuzz::faults! {
    /// One way in which a call may be wrong, beside what is worked out.
    pub enum StepFault beside Nothing, OfValues(ValueFault) {
        // Rooms and refusals.
        ShortBeforeTheCheck,
        StackWordEarly,
        StackWordLate,
        StackUntested,
        VariablesEarly,
        VariablesLate,
        VariablesUntested,
        MarksEarly,
        MarksLate,
        MarksUntested,
        HeightNotAdded,
        HeightWraps,
        ShortAtTheScript,
        HeightAfterShort,
        StackClearedAfterShort,
        StackBegunBeforeShort,
        VariablesChangedAfterShort,
        MarksChangedAfterShort,
        StackClearedAfterRefusal,
        // What is left.
        AboveNotCleared,
        AboveClearedUpToRows,
        PoppedWordsLeft,
        NextRowFirst,
        HeightIsOneMore,
        HeightAfterAFailure,
        ValuesBehindChanged,
        MarksBehindChanged,
        RowAfterTheEnd,
        RowOfTheSequence,
        NoRowAtTheLimit,
        SplitOnFailure,
        SplitAtTheLimit,
        SplitAtOnce,
        FailingStepCounted,
        SequencesCounted,
        // The limit.
        LimitOneEarly,
        LimitOneLate,
        LimitOf32Bits,
        NoLimitIsZero,
        SpentBeforeEnded,
        FailureBeforeSpent,
        // Steps.
        SkipIsNoStep,
        AssertionIsNoStep,
        BranchIsNoStep,
        LeavingIsNoStep,
        MarkIsAStep,
        ElseForThen,
        SecondPartFirst,
        LoopLeftAfterAPass,
        LoopBeforeItsBody,
        MarkNotSet,
        MarkSetOnce,
        MarkSetWhenLeft,
        MarkBeforeTheGuard,
        MarkOfTheNote,
        MarkOneLess,
        VariantWhereTheGuardIsFalse,
        InvariantWorkedOut,
        PreconditionWorkedOut,
        PostconditionWorkedOut,
        FalseAssertionPasses,
        AssertionIs53,
        AssignedOnFailure,
        NextVariableAssigned,
        VariableOfTheLowByteAssigned,
        // Going on.
        GoOnFromTheScript,
        GoOnFromTheFirstWord,
        OtherWordsStop,
        OtherWordsAreNoStep,
        OtherWordsHaveNoRow,
        OtherRowsAreTheScript,
        WordsOf16Bits,
        WordsOf11Bits,
    }
}

use StepFault::*;

/// Every fault, those in values first.
pub fn step_faults() -> impl Iterator<Item = StepFault> {
    let of_values = ValueFault::ALL.iter().map(|&fault| OfValues(fault));
    of_values.chain(StepFault::ALL.iter().copied())
}

/// The machine with one fault.
pub struct Misstepped(pub StepFault);

impl Misstepped {
    fn call(
        &self,
        table: &[i32],
        lent: &mut LentRuns,
        height: Option<usize>,
        limit: u64,
    ) -> RunAnswer {
        let refusal = match reference::check(table) {
            Verdict::Refused { number, row } => Some((number, row)),
            Verdict::Accepted => None,
        };
        let is_short = self.is_short(table.len() / 4, lent, height);
        let short = is_short.then_some((51, 0));
        let refusal = match self.0 {
            ShortBeforeTheCheck => short.or(refusal),
            _ => refusal.or(short),
        };
        match refusal {
            Some((number, row)) => self.refuse(table, lent, height, number, row),
            None => self.run(table, lent, height, limit),
        }
    }

    fn is_short(&self, rows: usize, lent: &LentRuns, height: Option<usize>) -> bool {
        let height = height.unwrap_or(0);
        let enough = match self.0 {
            HeightNotAdded => rows,
            HeightWraps => height.wrapping_add(rows),
            StackUntested => 0,
            StackWordEarly => height.saturating_add(rows + 1),
            StackWordLate => height.saturating_add(rows.saturating_sub(1)),
            _ => height.saturating_add(rows),
        };
        let variables = match self.0 {
            VariablesEarly => 1_025,
            VariablesLate => 1_023,
            VariablesUntested => 0,
            _ => 1_024,
        };
        let marks = match self.0 {
            MarksEarly => 2_049,
            MarksLate => 2_047,
            MarksUntested => 0,
            _ => 2_048,
        };
        lent.stack.len() < enough || lent.variables.len() < variables || lent.marks.len() < marks
    }

    fn refuse(
        &self,
        table: &[i32],
        lent: &mut LentRuns,
        height: Option<usize>,
        number: u8,
        row: usize,
    ) -> RunAnswer {
        let mut answer = RunAnswer {
            number,
            row,
            steps: 0,
            height: 0,
        };
        match (self.0, number) {
            (ShortAtTheScript, 51) => answer.row = (table.len() / 4).saturating_sub(1),
            (HeightAfterShort, 51) => answer.height = height.unwrap_or(1),
            (StackClearedAfterShort, 51) => lent.stack.fill(0),
            (StackBegunBeforeShort, 51) => put(lent.stack, 0, table[table.len() - 2] as u32),
            (VariablesChangedAfterShort, 51) => put(lent.variables, 0, 0),
            (MarksChangedAfterShort, 51) => put(lent.marks, 0, 0),
            (StackClearedAfterRefusal, 1..=10) => lent.stack.fill(0),
            _ => (),
        }
        answer
    }

    fn run(
        &self,
        table: &[i32],
        lent: &mut LentRuns,
        height: Option<usize>,
        limit: u64,
    ) -> RunAnswer {
        let rows = table.as_chunks().0;
        let [_, _, statement, _] = rows[rows.len() - 1];
        let first_words = |height: usize| lent.stack[..height.min(lent.stack.len())].to_vec();
        let stack = match (height, self.0) {
            (None, _) | (_, GoOnFromTheScript) => vec![statement as u32],
            (Some(height), GoOnFromTheFirstWord) => {
                let words = first_words(height);
                words.into_iter().rev().collect()
            }
            (Some(height), _) => first_words(height),
        };
        let mut machine = Machine::new(self.0, rows, stack, lent);
        let (number, row, steps) = machine.go(limit);
        self.leave(&machine, lent, rows.len());
        let mut answer = RunAnswer {
            number,
            row,
            steps,
            height: machine.stack.len(),
        };
        match (self.0, number) {
            (HeightIsOneMore, _) => answer.height += 1,
            (HeightAfterAFailure, 50 | 52 | 53) => answer.height = 0,
            (RowAfterTheEnd, 0) => answer.row = statement as usize,
            (NoRowAtTheLimit, 54) => answer.row = 0,
            _ => (),
        }
        answer
    }

    /// Puts what the machine holds into what is lent.
    fn leave(&self, machine: &Machine, lent: &mut LentRuns, rows: usize) {
        let height = machine.stack.len();
        let cleared = match self.0 {
            AboveNotCleared => height..height,
            AboveClearedUpToRows => height..rows.max(height),
            PoppedWordsLeft => machine.tallest..lent.stack.len().max(machine.tallest),
            _ => height..lent.stack.len().max(height),
        };
        let end = cleared.end.min(lent.stack.len());
        lent.stack[cleared.start.min(end)..end].fill(0);
        let mut words = machine.stack.clone();
        if self.0 == NextRowFirst {
            words.reverse();
        }
        for (place, &word) in words.iter().enumerate() {
            put(lent.stack, place, word);
        }
        lent.variables.copy_from_slice(&machine.variables);
        lent.marks.copy_from_slice(&machine.marks);
        match self.0 {
            ValuesBehindChanged => put(lent.variables, 1_024, 0),
            MarksBehindChanged => put(lent.marks, 2_048, 0),
            _ => (),
        }
    }
}

/// Puts it where there is such a place.
fn put<T>(cells: &mut [T], place: usize, value: T) {
    if let Some(cell) = cells.get_mut(place) {
        *cell = value;
    }
}

impl Subject for Misstepped {
    fn check(&mut self, words: &[i32]) -> Verdict {
        Reference.check(words)
    }

    fn generate(&mut self, words: &[i32], list: &mut [i32], scratch: &mut [i32]) -> Answer {
        Reference.generate(words, list, scratch)
    }

    fn line_at(&mut self, list: &[i32], index: i64) -> Line {
        Reference.line_at(list, index)
    }

    fn walk(&mut self, list: &[i32], steps: usize) -> Vec<Line> {
        Reference.walk(list, steps)
    }

    fn run(&mut self, table: &[i32], lent: &mut LentRuns, limit: u64) -> Option<RunAnswer> {
        Some(self.call(table, lent, None, limit))
    }

    fn go_on(
        &mut self,
        table: &[i32],
        lent: &mut LentRuns,
        height: usize,
        limit: u64,
    ) -> Option<RunAnswer> {
        Some(self.call(table, lent, Some(height), limit))
    }
}
