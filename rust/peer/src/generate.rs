//! The generator: its refusals, and the walk over the loops.

use crate::check::{check_rows, rows_of, Accepted};
use crate::spell::{Full, Memory, Part, Writer};
use crate::stack::Storage;
use crate::weakest::{follow_branch, follow_sequence, Follow, Open, Walk, Written, BODY, SCRIPT};
use crate::{Answer, Row, Verdict, LONGEST_LIST, MOST_ROWS};

/// The generator. Whatever both buffers held before the call, after it the
/// list is followed by zeros and the scratch is all zeros.
#[inline(never)]
pub fn generate(table: &[i32], list: &mut [i32], scratch: &mut [i32]) -> Answer {
    let answer = answer(table, list, scratch);
    scratch.fill(0);
    match answer {
        Ok(answer) => {
            list[answer.words..].fill(0);
            answer
        }
        Err(Verdict { number, row }) => {
            list.fill(0);
            Answer {
                number,
                row,
                ..Answer::default()
            }
        }
    }
}

#[inline(always)]
fn answer(table: &[i32], list: &mut [i32], scratch: &mut [i32]) -> Result<Answer, Verdict> {
    let rows = rows_of(table)?;
    let accepted = check_rows(rows)?;
    let room = list.len().min(LONGEST_LIST);
    if scratch.len() < 2 * rows.len() {
        return Err(Verdict { number: 11, row: 0 });
    }
    let (conditions, words) = write_list(rows, &mut list[..room], scratch, accepted)
        .map_err(|Full| Verdict { number: 12, row: 0 })?;
    Ok(Answer {
        number: 0,
        row: 0,
        conditions,
        words,
    })
}

/// How many conditions the list has, and how many words. The scratch has two runs of a
/// word for each row: what follows each statement, and the assignments passed.
fn write_list(
    rows: &[Row],
    list: &mut [i32],
    scratch: &mut [i32],
    accepted: Accepted,
) -> Result<(usize, usize), Full> {
    let has_loops = accepted.has_loops;
    let last = rows.len() - 1;
    let [_, precondition, statement, postcondition] = rows[last];
    let (follow, path) = scratch.split_at_mut(rows.len());
    follow[statement as usize] = i32::from(SCRIPT);
    let mut memory = Memory::new();
    let (mut invariants, mut open) = (Storage::<_, MOST_ROWS>::new(), Storage::new());
    let mut branches = Storage::new();
    let mut walk = Walk {
        writer: Writer::new(rows, list, &mut path[..rows.len()], &mut memory, &accepted),
        follow,
        invariants: invariants.filled(if has_loops { rows.len() } else { 0 }, Part::default()),
        open: open.stack(),
        branches: branches.stack(),
        postcondition,
        postcondition_written: Written::nowhere(),
        conditions: 0,
    };
    if has_loops {
        walk.list_loops(statement as u16)?;
    }
    let start = walk.writer.place();
    walk.writer.put(25)?;
    walk.writer.write(precondition)?;
    walk.write_before(statement as u16)?;
    walk.finish(start, 4, last as u16, 0)?;
    walk.writer.put(-walk.conditions)?;
    Ok((walk.conditions as usize, walk.writer.place()))
}

/// What is to be walked after the statement at hand.
#[derive(Clone, Copy)]
enum Later {
    Statement(u16),
    /// The step of a loop whose body is walked.
    Step(u16),
}

impl Walk<'_> {
    /// Lists the conditions of all loops of a statement, in their order.
    fn list_loops(&mut self, mut statement: u16) -> Result<(), Full> {
        let mut later = Storage::<_, MOST_ROWS>::new();
        let mut later = later.stack();
        loop {
            let [kind, first, second, third] = self.writer.rows[usize::from(statement)];
            match kind {
                34 => {
                    follow_sequence(self.follow, statement, first, second);
                    later.push(Later::Statement(first as u16));
                    statement = second as u16;
                    continue;
                }
                35 => {
                    follow_branch(self.follow, statement, second, third);
                    later.push(Later::Statement(third as u16));
                    statement = second as u16;
                    continue;
                }
                36 => {
                    self.open_loop(statement)?;
                    later.push(Later::Step(statement));
                    statement = third as u16;
                    continue;
                }
                _ => {}
            }
            statement = loop {
                match later.pop() {
                    None => return Ok(()),
                    Some(Later::Statement(next)) => break next,
                    Some(Later::Step(the_loop)) => self.close_loop(the_loop)?,
                }
            };
        }
    }

    /// The condition guard, for a guard that divides: its invariant.
    fn list_guard(&mut self, row: u16, guard: i32, invariant: i32) -> Result<Part, Full> {
        let start = self.writer.place();
        self.writer.put(25)?;
        let invariant_words = self.writer.write(invariant)?;
        self.writer.write_divisors(guard)?;
        self.finish(start, 5, row, self.open.len())?;
        Ok(invariant_words)
    }

    /// The conditions guard, exit and floor.
    fn open_loop(&mut self, row: u16) -> Result<(), Full> {
        let [_, guard, note, body] = self.writer.rows[usize::from(row)];
        let [_, invariant, variant, _] = self.writer.rows[note as usize];

        let listed = if self.writer.divides(guard) {
            Some(self.list_guard(row, guard, invariant)?)
        } else {
            None
        };

        let start = self.writer.place();
        self.writer.put(25)?;
        self.writer.put(23)?;
        let invariant_words = self.writer.write_or_copy(invariant, listed)?;
        self.invariants[usize::from(row)] = invariant_words;
        self.writer.put(22)?;
        let guard_words = self.writer.write(guard)?;
        self.write_before(self.follow[usize::from(row)] as Follow)?;
        self.finish(start, 1, row, self.open.len())?;

        let start = self.writer.place();
        self.writer.put(25)?;
        self.writer.put(23)?;
        let from = self.writer.place();
        self.writer.copy(invariant_words)?;
        self.writer.copy(guard_words)?;
        let both = self.writer.since(from);
        self.writer.put(19)?;
        self.writer.put(1)?;
        self.writer.put(0)?;
        let variant_words = self.writer.write(variant)?;
        self.finish(start, 2, row, self.open.len())?;

        self.follow[body as usize] = i32::from(BODY | self.open.len() as u16);
        self.open.push(Open {
            row,
            invariant,
            variant,
            both,
            variant_words,
            end: Written::nowhere(),
        });
        Ok(())
    }

    /// The condition step.
    fn close_loop(&mut self, row: u16) -> Result<(), Full> {
        let [_, _, _, body] = self.writer.rows[usize::from(row)];
        let start = self.writer.place();
        self.writer.put(25)?;
        self.writer.put(23)?;
        self.writer.put(23)?;
        if let Some(&open) = self.open.get(self.open.len() - 1) {
            self.writer.copy(open.both)?;
            self.writer.put(20)?;
            self.writer.copy(open.variant_words)?;
        }
        self.writer.put(9)?;
        self.writer.put(row.into())?;
        self.write_before(body as u16)?;
        self.open.pop();
        self.finish(start, 3, row, self.open.len())?;
        Ok(())
    }

    /// The trailer of a condition; `depth` loops are open around its own.
    fn finish(&mut self, start: usize, kind: i32, row: u16, depth: usize) -> Result<(), Full> {
        let length = self.writer.place() - start;
        self.writer.put(kind)?;
        self.writer.put(row.into())?;
        self.writer.put(length as i32)?;
        self.writer.put(depth as i32)?;
        self.conditions += 1;
        Ok(())
    }
}
