//! The list as it is written, and the words of expressions and formulas in it.
//!
//! The assignments passed are on a path, with the latest of each variable. A
//! variable is written as what its latest assignment gave it; once that stands
//! in the list it is copied.

use crate::check::Accepted;
use crate::divisors::note_divisions;
use crate::stack::{Stack, Storage};
use crate::{Row, MOST_ROWS, VARIABLES};

/// No room for one more word.
pub struct Full;

/// Words that stand in the list; none where there are no such words yet.
#[derive(Clone, Copy, Default)]
pub struct Part {
    start: u16,
    pub length: u16,
}

/// An assignment on the path. They count from 1. The variable and the row of the assigned
/// expression are in the caller's scratch.
#[derive(Clone, Copy)]
struct Passed {
    /// The assignment to the same variable before this one, or 0.
    before: u16,
    /// Where the value stands, under the assignments before.
    written: Part,
    version: u32,
}

/// Stands among the rows to be written later: the innermost value ends.
const VALUE_ENDS: u16 = 0xffff;

/// The value of an assignment that is being written.
#[derive(Clone, Copy)]
struct Value {
    assignment: u16,
    start: u16,
    /// How many assignments counted outside it.
    seen: u16,
}

/// Memory for a [`Writer`].
pub struct Memory {
    path: Storage<Passed, MOST_ROWS>,
    later: Storage<u16, MOST_ROWS>,
    values: Storage<Value, MOST_ROWS>,
    latest: Storage<u16, VARIABLES>,
    divides: Storage<bool, MOST_ROWS>,
}

impl Memory {
    pub const fn new() -> Memory {
        Memory {
            path: Storage::new(),
            later: Storage::new(),
            values: Storage::new(),
            latest: Storage::new(),
            divides: Storage::new(),
        }
    }
}

pub struct Writer<'a> {
    pub rows: &'a [Row],
    list: &'a mut [i32],
    at: usize,
    path: Stack<'a, Passed, MOST_ROWS>,
    /// What each assignment on the path assigns: the variable, and above it the row of the
    /// expression.
    assigned: &'a mut [i32],
    /// The latest assignment to each variable, or 0; none to variables beyond.
    latest: &'a mut [u16],
    /// Whether a row has a div or mod in it; none has where there are no such rows.
    divides: &'a [bool],
    /// How many assignments were ever put on the path.
    versions: u32,
    /// Rows to be written later.
    later: &'a mut Storage<u16, MOST_ROWS>,
    values: &'a mut Storage<Value, MOST_ROWS>,
}

/// A copy of so few words is made of one move of as many.
const SHORT: usize = 8;

impl<'a> Writer<'a> {
    /// For rows that the check accepted.
    pub fn new(
        rows: &'a [Row],
        list: &'a mut [i32],
        assigned: &'a mut [i32],
        memory: &'a mut Memory,
        accepted: &Accepted,
    ) -> Writer<'a> {
        let looked_at = if accepted.has_divisions { rows } else { &[] };
        let divides = memory.divides.filled(looked_at.len(), false);
        note_divisions(looked_at, divides);
        Writer {
            rows,
            list,
            at: 0,
            path: memory.path.stack(),
            assigned,
            latest: memory.latest.filled(accepted.targets, 0),
            divides,
            versions: 0,
            later: &mut memory.later,
            values: &mut memory.values,
        }
    }

    pub fn place(&self) -> usize {
        self.at
    }

    #[inline(always)]
    pub fn put(&mut self, word: i32) -> Result<(), Full> {
        put(self.list, &mut self.at, word)
    }

    /// The words written since a place.
    #[inline(always)]
    pub fn since(&self, start: usize) -> Part {
        part(start, self.at)
    }

    #[inline(always)]
    pub fn copy(&mut self, part: Part) -> Result<(), Full> {
        copy(self.list, &mut self.at, part)
    }

    /// How many assignments are on the path.
    #[inline(always)]
    pub fn passed(&self) -> u16 {
        self.path.len() as u16
    }

    /// The number of the path; no two paths have the same.
    #[inline(always)]
    pub fn version(&self) -> u32 {
        let last = self.path.len().wrapping_sub(1);
        self.path.get(last).map_or(0, |passed| passed.version)
    }

    #[inline(always)]
    pub fn pass(&mut self, variable: i32, value: i32) {
        let latest = &mut self.latest[variable as usize];
        self.versions += 1;
        self.assigned[self.path.len()] = value << 16 | variable;
        self.path.push(Passed {
            before: *latest,
            written: Part::default(),
            version: self.versions,
        });
        *latest = self.path.len() as u16;
    }

    /// Takes assignments off the path until so many are left.
    #[inline(always)]
    pub fn go_back(&mut self, passed: u16) {
        while self.path.len() > usize::from(passed) {
            if let Some(Passed { before, .. }) = self.path.pop() {
                let variable = self.assigned[self.path.len()] & 0xffff;
                self.latest[variable as usize] = before;
            }
        }
    }

    /// Writes a row, or copies it where it stands already.
    #[inline(always)]
    pub fn write_or_copy(&mut self, row: i32, known: Option<Part>) -> Result<Part, Full> {
        match known {
            Some(part) => self.copy(part).map(|()| part),
            None => self.write(row),
        }
    }

    #[inline(always)]
    pub fn divides(&self, row: i32) -> bool {
        self.divides.get(row as usize) == Some(&true)
    }

    /// Writes the expression or formula at a row, under the whole path.
    pub fn write(&mut self, row: i32) -> Result<Part, Full> {
        let start = self.at;
        self.at = self.write_row(row as u16)?;
        Ok(part(start, self.at))
    }

    #[inline(always)]
    fn write_row(&mut self, mut row: u16) -> Result<usize, Full> {
        let (rows, list, mut at) = (self.rows, &mut *self.list, self.at);
        let (mut later, mut values) = (self.later.stack(), self.values.stack());
        let mut seen = self.path.len() as u16;
        loop {
            let [kind, first, second, third] = rows[usize::from(row)];
            match kind {
                2 => {
                    let latest = self.latest.get(first as usize).copied();
                    let assignment = latest_of(&self.path, latest.unwrap_or(0), seen);
                    match self.path.get(usize::from(assignment).wrapping_sub(1)) {
                        None => put_two(list, &mut at, 2, first)?,
                        Some(passed) if passed.written.length > 0 => {
                            copy(list, &mut at, passed.written)?
                        }
                        Some(_) => {
                            later.push(VALUE_ENDS);
                            values.push(Value {
                                assignment,
                                start: at as u16,
                                seen,
                            });
                            seen = assignment - 1;
                            row = (self.assigned[usize::from(seen)] >> 16) as u16;
                            continue;
                        }
                    }
                }
                1 | 9 => put_two(list, &mut at, kind, first)?,
                16 | 17 => put(list, &mut at, kind)?,
                8 | 22 => {
                    put(list, &mut at, kind)?;
                    row = first as u16;
                    continue;
                }
                10 => {
                    put(list, &mut at, kind)?;
                    later.push(third as u16);
                    later.push(second as u16);
                    row = first as u16;
                    continue;
                }
                _ => {
                    put(list, &mut at, kind)?;
                    later.push(second as u16);
                    row = first as u16;
                    continue;
                }
            }
            row = loop {
                match later.pop() {
                    None => return Ok(at),
                    Some(VALUE_ENDS) => {
                        if let Some(value) = values.pop() {
                            seen = value.seen;
                            let passed = self.path.get_mut(usize::from(value.assignment) - 1);
                            if let Some(passed) = passed {
                                passed.written = part(value.start.into(), at);
                            }
                        }
                    }
                    Some(row) => break row,
                }
            };
        }
    }
}

/// The latest assignment among the first `seen`, back from one that may be later
/// to the same variable; 0 for none.
#[inline(always)]
fn latest_of(path: &Stack<Passed, MOST_ROWS>, mut assignment: u16, seen: u16) -> u16 {
    while assignment > seen {
        let passed = path.get(usize::from(assignment) - 1);
        assignment = passed.map_or(0, |passed| passed.before);
    }
    assignment
}

#[inline(always)]
fn part(start: usize, end: usize) -> Part {
    Part {
        start: start as u16,
        length: (end - start) as u16,
    }
}

#[inline(always)]
fn put(list: &mut [i32], at: &mut usize, word: i32) -> Result<(), Full> {
    *list.get_mut(*at).ok_or(Full)? = word;
    *at += 1;
    Ok(())
}

#[inline(always)]
fn put_two(list: &mut [i32], at: &mut usize, first: i32, second: i32) -> Result<(), Full> {
    let places = list.get_mut(*at..*at + 2).ok_or(Full)?;
    places.copy_from_slice(&[first, second]);
    *at += 2;
    Ok(())
}

/// Few words are moved as if they were [`SHORT`]: those too many are written
/// over, by the next words or by zeros.
#[inline(always)]
fn copy(list: &mut [i32], at: &mut usize, part: Part) -> Result<(), Full> {
    let (start, length) = (usize::from(part.start), usize::from(part.length));
    if length <= SHORT && *at + SHORT <= list.len() {
        list.copy_within(start..start + SHORT, *at);
    } else if *at + length <= list.len() {
        list.copy_within(start..start + length, *at);
    } else {
        return Err(Full);
    }
    *at += length;
    Ok(())
}
