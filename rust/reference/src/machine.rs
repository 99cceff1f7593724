//! Request P11, "A stepping machine": "a stack of rows, 1,024 lent 64-bit
//! values for variables, 2,048 for marks, and a step limit".
//!
//! The machine goes by the rows of the table, one step after the other, and
//! shares nothing with the runs of `run.rs`, so that the two can be compared.
//!
//! What the request leaves open is read thus:
//!
//! - A value is the result of any expression that is worked out, a part of
//!   another one too: "a value leaves 64 bits" also where the whole would be
//!   back inside. The mod of two values never leaves.
//! - What is met first decides between 50 and 53: "Operands go left first",
//!   and a divisor is looked at when both operands have their values. A guard
//!   goes before the variant, the formula of a choose before its branch, and an
//!   assertion is false only when all of it has been worked out.
//! - Only what a run works out can stop one: guards, assigned expressions,
//!   asserted formulas, and a loop's variant where its guard is true. Nothing
//!   works out invariants, the precondition or the postcondition.
//! - "the limit is spent and a step is still due" says nothing of how the step
//!   would end: 54 goes before the 50, 52 or 53 that one more step would meet.
//! - A step that stops is no whole step: it is not counted.
//! - A loop stays on the stack below its body, and its row is the next when the
//!   body is done, since "it tests again".
//! - "zeros above" are in all the words of the stack that are lent, past the
//!   number of rows too. Values past 1,024 and 2,048 are left alone.
//! - With 0 all is done: the row is 0, and so is the height. 51 names no row:
//!   it is 0, as the steps and the height are after every refusal.

use crate::check::{check, Verdict};
use crate::kinds::{shape, Sort};
use crate::table::{Row, Table, VARIABLES};

/// "2,048 for marks"
const MARKS: usize = 2_048;

/// "The answer holds number, row, whole steps done and stack height", and all
/// lent words after the call.
#[derive(Clone, Debug, PartialEq, Eq)]
pub struct Watched {
    pub number: u8,
    pub row: usize,
    pub steps: u64,
    pub height: usize,
    /// "the stack lies from word 0, next row last, zeros above"
    pub stack: Vec<u32>,
    pub variables: Vec<i64>,
    pub marks: Vec<i64>,
}

/// The machine from its start: the stack "starts as the script's statement".
/// What is lent is given as it is before the call.
pub fn watch(
    table: &[i32],
    stack: &[u32],
    variables: &[i64],
    marks: &[i64],
    limit: u64,
) -> Watched {
    let lent = Lent {
        stack,
        variables,
        marks,
    };
    watched(table, lent, Start::Script, limit)
}

/// The machine from a stack that is lent, which the request does not know: the
/// first `height` words are the rows that are still to do, next row last. Steps
/// are counted from 0.
///
/// The stack is to have `height` words more than the table has rows, else 51: a
/// row in its words may unfold to as many as the table has. A word that is not
/// the row of a statement of this table is done in a step that changes nothing.
pub fn go_on(
    table: &[i32],
    stack: &[u32],
    height: usize,
    variables: &[i64],
    marks: &[i64],
    limit: u64,
) -> Watched {
    let lent = Lent {
        stack,
        variables,
        marks,
    };
    watched(table, lent, Start::Stack { height }, limit)
}

/// The lent words, as before the call.
#[derive(Clone, Copy)]
struct Lent<'a> {
    stack: &'a [u32],
    variables: &'a [i64],
    marks: &'a [i64],
}

/// What is to be done.
#[derive(Clone, Copy)]
enum Start {
    /// The script's statement.
    Script,
    /// The first words of the lent stack.
    Stack { height: usize },
}

/// "1 to 10 come first, then 51, all lent words unchanged"
fn watched(words: &[i32], lent: Lent, start: Start, limit: u64) -> Watched {
    if let Verdict::Refused { number, row } = check(words) {
        return refused(number, row, lent);
    }
    let table = Table::new(words);
    if is_short(table, lent, start) {
        return refused(51, 0, lent);
    }
    let mut machine = Machine {
        table,
        stack: first_stack(table, lent, start),
        variables: lent.variables.to_vec(),
        marks: lent.marks.to_vec(),
    };
    let (number, row, steps) = machine.go(limit);
    let height = machine.stack.len();
    machine.stack.resize(lent.stack.len(), 0);
    Watched {
        number,
        row,
        steps,
        height,
        stack: machine.stack,
        variables: machine.variables,
        marks: machine.marks,
    }
}

fn refused(number: u8, row: usize, lent: Lent) -> Watched {
    Watched {
        number,
        row,
        steps: 0,
        height: 0,
        stack: lent.stack.to_vec(),
        variables: lent.variables.to_vec(),
        marks: lent.marks.to_vec(),
    }
}

/// "51 when the stack has fewer words than rows or a value run is short",
/// whatever the script needs of them.
fn is_short(table: Table, lent: Lent, start: Start) -> bool {
    let height = match start {
        Start::Script => 0,
        Start::Stack { height } => height,
    };
    lent.stack.len() < height.saturating_add(table.rows())
        || lent.variables.len() < VARIABLES
        || lent.marks.len() < MARKS
}

fn first_stack(table: Table, lent: Lent, start: Start) -> Vec<u32> {
    match start {
        Start::Script => vec![word(table.row_field(Row(table.rows() - 1), 1))],
        Start::Stack { height } => lent.stack[..height].to_vec(),
    }
}

/// The row's number as a word of the stack.
fn word(row: Row) -> u32 {
    row.0 as u32
}

/// Why a step is not done; all is as before it.
#[derive(Clone, Copy)]
enum Stop {
    /// "50 when a value leaves 64 bits"
    LeavesRange,
    /// "52 when an assertion is false"
    FalseAssertion,
    /// "53 when a script divides by zero"
    ZeroDivisor,
}

impl Stop {
    fn number(self) -> u8 {
        match self {
            Stop::LeavesRange => 50,
            Stop::FalseAssertion => 52,
            Stop::ZeroDivisor => 53,
        }
    }
}

/// Where an expression or a formula stands.
#[derive(Clone, Copy, PartialEq)]
enum Place {
    /// In a guard or an assigned expression: request P5 has a zero divisor
    /// fail.
    Code,
    /// In an assertion or a variant: "in annotations 01's totals stay".
    Annotation,
}

struct Machine<'a> {
    table: Table<'a>,
    /// The words up to the height.
    stack: Vec<u32>,
    variables: Vec<i64>,
    marks: Vec<i64>,
}

impl Machine<'_> {
    /// Steps until nothing is due, a step stops or the limit is spent: number,
    /// row and "whole steps done".
    fn go(&mut self, limit: u64) -> (u8, usize, u64) {
        let mut steps = 0;
        while let Some(&top) = self.stack.last() {
            let mut split = self.split(top);
            let due = split.pop().expect("a part of a sequence");
            // "54 when the limit is spent and a step is still due"
            if steps == limit {
                return (54, due as usize, steps);
            }
            // "the others give the row of the statement due (never a
            // sequence), with steps, height, values and stack as after the last
            // whole step"
            match self.step(due) {
                Err(stop) => return (stop.number(), due as usize, steps),
                Ok(next) => {
                    self.stack.pop();
                    self.stack.extend(split);
                    self.stack.extend(next);
                    steps += 1;
                }
            }
        }
        (0, 0, steps)
    }

    /// What takes the place of a word of the stack as its step begins, the
    /// statement due last: "a sequence is none, split only as the next step
    /// begins". "sequence: the first part, then the second."
    fn split(&self, top: u32) -> Vec<u32> {
        let (mut rest, mut due) = (Vec::new(), top);
        while let Some((row, 34)) = self.statement(due) {
            rest.push(word(self.table.row_field(row, 1)));
            due = word(self.table.row_field(row, 0));
        }
        rest.push(due);
        rest
    }

    /// The row of the word and its kind, where it is the row of a statement.
    fn statement(&self, word: u32) -> Option<(Row, i32)> {
        let row = Row(word as usize);
        if row.0 >= self.table.rows() {
            return None;
        }
        let kind = self.table.kind(row);
        let sort = shape(kind).expect("an accepted table").sort;
        (sort == Sort::Statement).then_some((row, kind))
    }

    /// "A step is one skip, assignment, assertion or guard test with its mark".
    /// Gives what is then to be done in the statement's place, next row last.
    /// It writes after all is worked out, so a step that stops has changed
    /// nothing.
    fn step(&mut self, due: u32) -> Result<Vec<u32>, Stop> {
        let table = self.table;
        let Some((row, kind)) = self.statement(due) else {
            return Ok(Vec::new());
        };
        let part = |field| table.row_field(row, field);
        match kind {
            // "skip: nothing changes."
            32 => Ok(Vec::new()),
            // "assign: the variable takes the value of its expression in the
            // old state."
            33 => {
                let value = self.value(part(1), Place::Code)?;
                self.variables[table.variable_field(row, 0).0] = value;
                Ok(Vec::new())
            }
            // "if: its then part where the guard is true, otherwise its else
            // part."
            35 => {
                let guard = self.truth(part(0), Place::Code)?;
                Ok(vec![word(part(if guard { 1 } else { 2 }))])
            }
            // "while: it tests its guard. True: its mark takes the variant's
            // value, the body runs, and it tests again. False: the loop is
            // left."
            36 => {
                if !self.truth(part(0), Place::Code)? {
                    return Ok(Vec::new());
                }
                let variant = table.row_field(part(1), 1);
                self.marks[row.0] = self.value(variant, Place::Annotation)?;
                Ok(vec![word(row), word(part(2))])
            }
            // "assert: nothing changes where true; where false the run stops
            // there as failed."
            38 if self.truth(part(0), Place::Annotation)? => Ok(Vec::new()),
            38 => Err(Stop::FalseAssertion),
            _ => unreachable!("kind {kind} is no statement that makes a step"),
        }
    }

    /// The value of an expression, "Operands go left first".
    fn value(&self, row: Row, place: Place) -> Result<i64, Stop> {
        let table = self.table;
        let part = |field| table.row_field(row, field);
        match table.kind(row) {
            1 => Ok(i64::from(table.fields(row)[0])),
            2 => Ok(self.variables[table.variable_field(row, 0).0]),
            9 => Ok(self.marks[part(0).0]),
            8 => within_64_bits(-i128::from(self.value(part(0), place)?)),
            // "in annotations too, choose works out only the branch taken"
            10 => {
                let chosen = self.truth(part(0), place)?;
                self.value(part(if chosen { 1 } else { 2 }), place)
            }
            kind => {
                let left = self.value(part(0), place)?;
                let right = self.value(part(1), place)?;
                if matches!(kind, 6 | 7) && right == 0 && place == Place::Code {
                    return Err(Stop::ZeroDivisor);
                }
                within_64_bits(whole_number(kind, i128::from(left), i128::from(right)))
            }
        }
    }

    /// Whether a formula is true; "connectives both sides", the left one first.
    fn truth(&self, row: Row, place: Place) -> Result<bool, Stop> {
        let part = |field| self.table.row_field(row, field);
        match self.table.kind(row) {
            16 => Ok(true),
            17 => Ok(false),
            22 => Ok(!self.truth(part(0), place)?),
            kind @ 18..=21 => {
                let left = self.value(part(0), place)?;
                let right = self.value(part(1), place)?;
                Ok(match kind {
                    18 => left < right,
                    19 => left <= right,
                    20 => left == right,
                    _ => left != right,
                })
            }
            kind => {
                let left = self.truth(part(0), place)?;
                let right = self.truth(part(1), place)?;
                Ok(match kind {
                    23 => left && right,
                    24 => left || right,
                    25 => !left || right,
                    _ => unreachable!("kind {kind} is no formula"),
                })
            }
        }
    }
}

/// "50 when a value leaves 64 bits"
fn within_64_bits(whole: i128) -> Result<i64, Stop> {
    i64::try_from(whole).map_err(|_| Stop::LeavesRange)
}

/// The whole number that an operation gives. No two values of 64 bits have one
/// that `i128` does not hold.
fn whole_number(kind: i32, left: i128, right: i128) -> i128 {
    match kind {
        3 => left + right,
        4 => left - right,
        5 => left * right,
        // "n = d × q + r with 0 ≤ r < |d|. Here n div 0 is 0 and n mod 0 is n."
        6 if right == 0 => 0,
        7 if right == 0 => left,
        6 => left.div_euclid(right),
        7 => left.rem_euclid(right),
        _ => unreachable!("kind {kind} is no operation on two values"),
    }
}
