//! W of a statement and of all that follows it.
//!
//! What follows a statement is fixed by the table, so `follow` names it: the
//! next statement, or an end. A formula that was written at an end is copied
//! where the path is the same.

use crate::spell::{Full, Part, Writer};
use crate::stack::Stack;
use crate::MOST_ROWS;

/// What follows a statement: a row, the end of the script, or with the bit
/// `BODY` the end of the body of an open loop.
pub type Follow = u16;

pub const SCRIPT: Follow = 0xffff;
pub const BODY: Follow = 0x8000;

/// A formula as it stands under one version of the path.
#[derive(Clone, Copy)]
pub struct Written {
    version: u32,
    part: Part,
}

impl Written {
    pub fn nowhere() -> Written {
        Written {
            version: u32::MAX,
            part: Part::default(),
        }
    }
}

/// A loop whose body is walked.
#[derive(Clone, Copy)]
pub struct Open {
    pub row: u16,
    pub invariant: i32,
    pub variant: i32,
    /// Invariant and guard, as they stand together.
    pub both: Part,
    pub variant_words: Part,
    /// I and (V less m).
    pub end: Written,
}

/// A branch whose else side is still to come.
#[derive(Clone, Copy)]
pub struct Branch {
    otherwise: u16,
    /// How many assignments had been passed.
    passed: u16,
    guard: Part,
}

pub struct Walk<'a> {
    pub writer: Writer<'a>,
    /// By the row of a statement; a [`Follow`] each, where it was met.
    pub follow: &'a mut [i32],
    /// Where a loop's invariant stands, by its row.
    pub invariants: &'a mut [Part],
    pub open: Stack<'a, Open, 8>,
    pub branches: Stack<'a, Branch, MOST_ROWS>,
    pub postcondition: i32,
    pub postcondition_written: Written,
    pub conditions: i32,
}

/// Sets what follows both parts of a sequence.
#[inline(always)]
pub fn follow_sequence(follow: &mut [i32], row: u16, first: i32, second: i32) {
    follow[second as usize] = follow[usize::from(row)];
    follow[first as usize] = second;
}

/// Sets what follows both sides of a branch.
#[inline(always)]
pub fn follow_branch(follow: &mut [i32], row: u16, then: i32, otherwise: i32) {
    follow[then as usize] = follow[usize::from(row)];
    follow[otherwise as usize] = follow[usize::from(row)];
}

impl Walk<'_> {
    /// Writes W of a statement, or of an end, and of all that follows it.
    pub fn write_before(&mut self, mut statement: Follow) -> Result<(), Full> {
        loop {
            statement = self.pass_silent(statement);
            if let Some(next) = self.write_first(statement)? {
                statement = next;
                continue;
            }
            let Some(branch) = self.branches.pop() else {
                self.writer.go_back(0);
                return Ok(());
            };
            self.writer.go_back(branch.passed);
            self.writer.put(25)?;
            self.writer.put(22)?;
            self.writer.copy(branch.guard)?;
            statement = branch.otherwise;
        }
    }

    /// Passes the statements that write nothing of their own: the first that does, or an end.
    #[inline(always)]
    fn pass_silent(&mut self, mut statement: Follow) -> Follow {
        let (rows, follow) = (self.writer.rows, &mut *self.follow);
        while statement & BODY == 0 {
            let [kind, first, second, _] = rows[usize::from(statement)];
            statement = match kind {
                32 => follow[usize::from(statement)] as Follow,
                33 if !self.writer.divides(second) => {
                    self.writer.pass(first, second);
                    follow[usize::from(statement)] as Follow
                }
                34 => {
                    follow_sequence(follow, statement, first, second);
                    first as Follow
                }
                _ => break,
            };
        }
        statement
    }

    /// What a statement writes before the rest of its formula: the statement
    /// that the rest belongs to, or nothing where the formula ends.
    #[inline(always)]
    fn write_first(&mut self, statement: Follow) -> Result<Option<Follow>, Full> {
        if statement & BODY != 0 {
            self.write_end(statement)?;
            return Ok(None);
        }
        let [kind, first, second, third] = self.writer.rows[usize::from(statement)];
        Ok(match kind {
            33 => {
                self.writer.put(23)?;
                self.writer.write_divisors(second)?;
                self.writer.pass(first, second);
                Some(self.follow[usize::from(statement)] as Follow)
            }
            35 => {
                follow_branch(self.follow, statement, second, third);
                if self.writer.divides(first) {
                    self.writer.put(23)?;
                    self.writer.write_divisors(first)?;
                }
                self.writer.put(23)?;
                self.writer.put(25)?;
                let passed = self.writer.passed();
                let guard = self.writer.write(first)?;
                self.branches.push(Branch {
                    otherwise: third as u16,
                    passed,
                    guard,
                });
                Some(second as Follow)
            }
            38 => {
                self.writer.put(23)?;
                self.writer.write(first)?;
                Some(self.follow[usize::from(statement)] as Follow)
            }
            _ => {
                self.write_invariant(statement, second)?;
                None
            }
        })
    }

    fn write_invariant(&mut self, the_loop: u16, note: i32) -> Result<(), Full> {
        if self.writer.passed() == 0 {
            return self.writer.copy(self.invariants[usize::from(the_loop)]);
        }
        let [_, invariant, ..] = self.writer.rows[note as usize];
        self.writer.write(invariant)?;
        Ok(())
    }

    fn write_end(&mut self, end: Follow) -> Result<(), Full> {
        let version = self.writer.version();
        let open = usize::from(end & !BODY);
        let known = match self.open.get(open) {
            Some(open) => open.end,
            None => self.postcondition_written,
        };
        if known.version == version {
            return self.writer.copy(known.part);
        }
        let start = self.writer.place();
        match self.open.get(open) {
            Some(&open) => self.write_lowered(open)?,
            None => _ = self.writer.write(self.postcondition)?,
        }
        let part = self.writer.since(start);
        let written = match self.open.get_mut(open) {
            Some(open) => &mut open.end,
            None => &mut self.postcondition_written,
        };
        *written = Written { version, part };
        Ok(())
    }

    /// I and (V less m).
    fn write_lowered(&mut self, open: Open) -> Result<(), Full> {
        let writer = &mut self.writer;
        writer.put(23)?;
        if writer.passed() == 0 {
            writer.copy(self.invariants[usize::from(open.row)])?;
            writer.put(18)?;
            writer.copy(open.variant_words)?;
        } else {
            writer.write(open.invariant)?;
            writer.put(18)?;
            writer.write(open.variant)?;
        }
        writer.put(9)?;
        writer.put(open.row.into())
    }
}
