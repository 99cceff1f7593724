//! The stepping machine. A step looks at the row that is due, works out what that row
//! needs, and changes the stack and the values only when nothing stops it; a sequence on
//! top is walked down once to find the row, and once more to be split.

use crate::check::{check_rows, rows_of};
use crate::stack::Storage;
use crate::values::Values;
use crate::{Row, RunAnswer, Verdict, MOST_ROWS, VARIABLES};

/// The script's statement from the values lent, for so many steps at most.
#[inline(never)]
pub fn run(
    table: &[i32],
    stack: &mut [u32],
    variables: &mut [i64],
    marks: &mut [i64],
    limit: u64,
) -> RunAnswer {
    let mut start = |rows: &[Row], stack: &mut [u32]| {
        let [_, _, statement, _] = rows[rows.len() - 1];
        stack[0] = statement as u32;
        1
    };
    let lent = (stack, variables, marks);
    answer(called(table, lent, 0, limit, &mut start))
}

/// The rows in the first `height` words of the stack, the next one last.
#[inline(never)]
pub fn go_on(
    table: &[i32],
    stack: &mut [u32],
    height: usize,
    variables: &mut [i64],
    marks: &mut [i64],
    limit: u64,
) -> RunAnswer {
    let lent = (stack, variables, marks);
    answer(called(table, lent, height, limit, &mut |_, _| height))
}

fn answer(called: Result<RunAnswer, Verdict>) -> RunAnswer {
    called.unwrap_or_else(|Verdict { number, row }| RunAnswer {
        number,
        row,
        ..RunAnswer::default()
    })
}

/// The stack, the variables and the marks.
type Lent<'a> = (&'a mut [u32], &'a mut [i64], &'a mut [i64]);

/// With so many words of stack beside one for each row; `start` puts the first rows there
/// and says how many they are.
#[inline(always)]
fn called(
    table: &[i32],
    (stack, variables, marks): Lent,
    height: usize,
    limit: u64,
    start: &mut dyn FnMut(&[Row], &mut [u32]) -> usize,
) -> Result<RunAnswer, Verdict> {
    let rows = rows_of(table)?;
    check_rows(rows)?;
    let is_enough = stack.len() >= height.saturating_add(rows.len());
    let values = variables
        .first_chunk_mut::<VARIABLES>()
        .zip(marks.first_chunk_mut::<MOST_ROWS>());
    let Some((variables, marks)) = values.filter(|_| is_enough) else {
        return Err(Verdict { number: 51, row: 0 });
    };
    let mut waiting = Storage::new();
    let mut machine = Machine {
        height: start(rows, stack),
        stack,
        values: Values {
            rows,
            variables,
            marks,
            waiting: waiting.stack(),
        },
    };
    let (number, row, steps) = machine.go(limit);
    let Machine { stack, height, .. } = machine;
    stack[height..].fill(0);
    Ok(RunAnswer {
        number,
        row,
        steps,
        height,
    })
}

struct Machine<'a> {
    stack: &'a mut [u32],
    height: usize,
    values: Values<'a>,
}

/// What stops a step: its number.
type Stop = usize;

impl Machine<'_> {
    /// Number, row and whole steps.
    fn go(&mut self, limit: u64) -> (usize, usize, u64) {
        for steps in 0..limit {
            let Some((top, due)) = self.due() else {
                return (0, 0, steps);
            };
            if let Err(number) = self.step(top, due) {
                return (number, due as usize, steps);
            }
        }
        match self.due() {
            None => (0, 0, limit),
            Some((_, due)) => (54, due as usize, limit),
        }
    }

    /// The row that this word is; a skip where it is none.
    #[inline(always)]
    fn row(&self, word: u32) -> Row {
        let row = self.values.rows.get(word as usize);
        row.copied().unwrap_or([32, 0, 0, 0])
    }

    /// The word on top, and the row that is due there.
    #[inline(always)]
    fn due(&self) -> Option<(u32, u32)> {
        let top = self.stack[..self.height].last().copied()?;
        let mut due = top;
        while let [34, first, ..] = self.row(due) {
            due = first as u32;
        }
        Some((top, due))
    }

    /// Takes the row that is due off the stack, and splits the sequences above it.
    #[inline(always)]
    fn take(&mut self, top: u32) {
        let mut row = top;
        self.height -= 1;
        while let [34, first, second, _] = self.row(row) {
            self.push(second as u32);
            row = first as u32;
        }
    }

    #[inline(always)]
    fn push(&mut self, row: u32) {
        self.stack[self.height] = row;
        self.height += 1;
    }

    #[inline(always)]
    fn step(&mut self, top: u32, due: u32) -> Result<(), Stop> {
        let [kind, first, second, third] = self.row(due);
        match kind {
            33 => {
                let value = self.values.code(second)?;
                self.values.variables[first as usize] = value;
                self.take(top);
            }
            35 => {
                let is_true = self.values.code(first)? != 0;
                self.take(top);
                self.push(if is_true { second } else { third } as u32);
            }
            36 => {
                let is_true = self.values.code(first)? != 0;
                if is_true {
                    let [_, _, variant, _] = self.values.rows[second as usize];
                    self.values.marks[due as usize] = self.values.annotation(variant)?;
                }
                self.take(top);
                if is_true {
                    self.push(due);
                    self.push(third as u32);
                }
            }
            38 => {
                if self.values.annotation(first)? == 0 {
                    return Err(52);
                }
                self.take(top);
            }
            _ => self.take(top),
        }
        Ok(())
    }
}
