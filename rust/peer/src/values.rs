//! Values and truths of rows, with 64 bits. There is no recursion: what waits for the value
//! of a part is in a stack of its own. An operation on constants and variables puts nothing
//! there.

use crate::stack::Stack;
use crate::{Row, MOST_ROWS, VARIABLES};

pub struct Values<'a> {
    pub rows: &'a [Row],
    pub variables: &'a mut [i64; VARIABLES],
    pub marks: &'a mut [i64; MOST_ROWS],
    pub waiting: Stack<'a, Waiting, MOST_ROWS>,
}

/// A row that waits for the value of its first part, or of its second one.
#[derive(Clone, Copy)]
pub struct Waiting {
    row: u32,
    is_second: bool,
    /// The value of the first part, where it waits for the second.
    first: i64,
}

/// A value, or a truth as 0 or 1; or the number 50 or 53.
type Worked = Result<i64, usize>;

const TOO_LARGE: usize = 50;
const DIVIDED_BY_ZERO: usize = 53;

impl Values<'_> {
    /// Of a guard or an assigned expression.
    #[inline(always)]
    pub fn code(&mut self, row: i32) -> Worked {
        self.whole::<true>(row)
    }

    /// Of an assertion or a variant: n div 0 is 0, and n mod 0 is n.
    #[inline(always)]
    pub fn annotation(&mut self, row: i32) -> Worked {
        self.whole::<false>(row)
    }

    /// What most are, a leaf or an operation on two, is worked out at once.
    #[inline(always)]
    fn whole<const IS_CODE: bool>(&mut self, row: i32) -> Worked {
        match self.rows[row as usize] {
            [1, value, ..] => Ok(value.into()),
            [2, variable, ..] => Ok(self.variables[variable as usize]),
            [kind @ (3..=7 | 18..=21), first, second, _] => {
                match (self.leaf(first), self.leaf(second)) {
                    (Some(left), Some(right)) => operate::<IS_CODE>(kind, left, right),
                    _ => self.work::<IS_CODE>(row),
                }
            }
            _ => self.work::<IS_CODE>(row),
        }
    }

    /// The value of a constant or a variable.
    #[inline(always)]
    fn leaf(&self, row: i32) -> Option<i64> {
        match self.rows[row as usize] {
            [1, value, ..] => Some(value.into()),
            [2, variable, ..] => Some(self.variables[variable as usize]),
            _ => None,
        }
    }

    #[inline(always)]
    fn wait(&mut self, row: i32, is_second: bool, first: i64) {
        self.waiting.push(Waiting {
            row: row as u32,
            is_second,
            first,
        });
    }

    #[inline(never)]
    fn work<const IS_CODE: bool>(&mut self, row: i32) -> Worked {
        // A step that was stopped may have left some.
        self.waiting.clear();
        let mut part = row;
        loop {
            let value = self.down::<IS_CODE>(part)?;
            match self.up::<IS_CODE>(value)? {
                Next::Done(value) => return Ok(value),
                Next::Part(next) => part = next,
            }
        }
    }

    /// The value of the first part of a first part, and so on, that has one at once.
    #[inline(always)]
    fn down<const IS_CODE: bool>(&mut self, part: i32) -> Worked {
        let mut row = part;
        loop {
            let [kind, first, second, _] = self.rows[row as usize];
            match kind {
                1 => return Ok(first.into()),
                2 => return Ok(self.variables[first as usize]),
                9 => return Ok(self.marks[first as usize]),
                16 => return Ok(1),
                17 => return Ok(0),
                8 | 10 | 22 => {
                    self.wait(row, false, 0);
                    row = first;
                }
                _ => {
                    let Some(left) = self.leaf(first) else {
                        self.wait(row, false, 0);
                        row = first;
                        continue;
                    };
                    let Some(right) = self.leaf(second) else {
                        self.wait(row, true, left);
                        row = second;
                        continue;
                    };
                    return operate::<IS_CODE>(kind, left, right);
                }
            }
        }
    }

    /// Gives a value to what waits for it, until nothing does or another part is wanted.
    #[inline(always)]
    fn up<const IS_CODE: bool>(&mut self, value: i64) -> Result<Next, usize> {
        let mut value = value;
        while let Some(waiting) = self.waiting.pop() {
            let [kind, _, second, third] = self.rows[waiting.row as usize];
            value = match kind {
                8 => checked(value.checked_neg())?,
                10 => return Ok(Next::Part(if value != 0 { second } else { third })),
                22 => 1 - value,
                _ if waiting.is_second => operate::<IS_CODE>(kind, waiting.first, value)?,
                _ => match self.leaf(second) {
                    Some(right) => operate::<IS_CODE>(kind, value, right)?,
                    None => {
                        self.wait(waiting.row as i32, true, value);
                        return Ok(Next::Part(second));
                    }
                },
            };
        }
        Ok(Next::Done(value))
    }
}

/// What is left to do when no more can be done with a value.
enum Next {
    Done(i64),
    Part(i32),
}

/// An operation, a comparison or a connective.
#[inline(always)]
fn operate<const IS_CODE: bool>(kind: i32, left: i64, right: i64) -> Worked {
    match kind {
        3 => checked(left.checked_add(right)),
        4 => checked(left.checked_sub(right)),
        5 => checked(left.checked_mul(right)),
        6 | 7 if right == 0 && IS_CODE => Err(DIVIDED_BY_ZERO),
        6 if right == 0 => Ok(0),
        7 if right == 0 => Ok(left),
        6 => checked(left.checked_div_euclid(right)),
        7 => Ok(left.wrapping_rem_euclid(right)),
        18 => Ok((left < right).into()),
        19 => Ok((left <= right).into()),
        20 => Ok((left == right).into()),
        21 => Ok((left != right).into()),
        23 => Ok(left & right),
        24 => Ok(left | right),
        _ => Ok((1 - left) | right),
    }
}

#[inline(always)]
fn checked(value: Option<i64>) -> Worked {
    value.ok_or(TOO_LARGE)
}
