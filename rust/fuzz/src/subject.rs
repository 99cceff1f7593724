//! What is compared with the reference.

use reference::{Line, ShorterPart, Verdict, Watched};

/// "An answer holds: number, row, conditions, words used."
#[derive(Clone, Copy, Debug, PartialEq, Eq)]
pub struct Answer {
    pub number: u8,
    pub row: usize,
    pub conditions: usize,
    pub words: usize,
}

/// What request P1's entry answers beside its text, and P6's beside its list: number
/// and bytes or words used.
#[derive(Clone, Copy, Debug, PartialEq, Eq)]
pub struct Written {
    pub number: u8,
    pub used: usize,
}

/// What request P4's entry answers beside its table: number, place and words
/// used.
#[derive(Clone, Copy, Debug, PartialEq, Eq)]
pub struct ReadAnswer {
    pub number: u8,
    pub place: usize,
    pub used: usize,
}

/// What request P7's entry answers beside the new table and the run of old rows: number,
/// row, words used, and how many rows are dropped and copied again.
#[derive(Clone, Copy, Debug, PartialEq, Eq)]
pub struct MendAnswer {
    pub number: u8,
    pub row: usize,
    pub words: usize,
    pub dropped: usize,
    pub copied: usize,
}

/// What request P11's entries answer beside what is lent: number, row, whole steps done and
/// the height of the stack.
#[derive(Clone, Copy, Debug, PartialEq, Eq)]
pub struct RunAnswer {
    pub number: u8,
    pub row: usize,
    pub steps: u64,
    pub height: usize,
}

/// What request P11's entries are lent.
pub struct LentRuns<'a> {
    pub stack: &'a mut [u32],
    pub variables: &'a mut [i64],
    pub marks: &'a mut [i64],
}

impl LentRuns<'_> {
    /// The answer of the second implementation, and its words in what is lent.
    fn take(&mut self, watched: Watched) -> RunAnswer {
        self.stack.copy_from_slice(&watched.stack);
        self.variables.copy_from_slice(&watched.variables);
        self.marks.copy_from_slice(&watched.marks);
        RunAnswer::of(&watched)
    }
}

impl RunAnswer {
    pub fn of(watched: &Watched) -> RunAnswer {
        RunAnswer {
            number: watched.number,
            row: watched.row,
            steps: watched.steps,
            height: watched.height,
        }
    }
}

/// An implementation of document 01 and of the requests as its callers see it.
pub trait Subject {
    /// The check of a table, numbers 1 to 10.
    fn check(&mut self, words: &[i32]) -> Verdict;

    /// The generator. Both buffers hold anything before the call.
    fn generate(&mut self, words: &[i32], list: &mut [i32], scratch: &mut [i32]) -> Answer;

    /// The list reader at an index from the front. (The indexes tried all fit
    /// in 32 bits.)
    fn line_at(&mut self, list: &[i32], index: i64) -> Line;

    /// The answers of the first `steps` steps of a reader over the list.
    fn walk(&mut self, list: &[i32], steps: usize) -> Vec<Line>;

    /// "The editor's entry takes the table as a lent run of row records"; a
    /// subject without it answers nothing.
    fn generate_from_records(
        &mut self,
        _records: &[[i32; 4]],
        _list: &mut [i32],
        _scratch: &mut [i32],
    ) -> Option<Answer> {
        None
    }

    /// Request P1: "Write the condition at an index as a script", into a buffer
    /// that holds anything before the call; a subject without it answers
    /// nothing.
    fn smt(&mut self, _list: &[i32], _index: i64, _text: &mut [u8]) -> Option<Written> {
        None
    }

    /// Request P4: the table of a script's text, into a buffer that holds anything
    /// before the call; a subject without it answers nothing.
    fn read_text(&mut self, _text: &[u8], _words: &mut [i32]) -> Option<ReadAnswer> {
        None
    }

    /// Request P6: "a pass over one list that writes another", into a buffer that
    /// holds anything before the call; a subject without it answers nothing.
    fn shorten(&mut self, _list: &[i32], _short: &mut [i32]) -> Option<Written> {
        None
    }

    /// Request P6: where the shorter of two lists' formulas at an index stands; a
    /// subject without it answers nothing.
    fn shorter(&mut self, _old: &[i32], _new: &[i32], _index: i64) -> Option<ShorterPart> {
        None
    }

    /// Request P7: "A mender writes a new table", and "A lent run says, for each new row,
    /// the old row it came from"; both buffers hold anything before the call; a subject
    /// without it answers nothing.
    fn mend(
        &mut self,
        _table: &[i32],
        _new: &mut [i32],
        _origins: &mut [i32],
    ) -> Option<MendAnswer> {
        None
    }

    /// Request P11: "a stack of rows, 1,024 lent 64-bit values for variables, 2,048 for marks,
    /// and a step limit"; a subject without it answers nothing.
    fn run(&mut self, _table: &[i32], _lent: &mut LentRuns, _limit: u64) -> Option<RunAnswer> {
        None
    }

    /// The same from the rows in so many words of the stack; a subject without it answers
    /// nothing.
    fn go_on(
        &mut self,
        _table: &[i32],
        _lent: &mut LentRuns,
        _height: usize,
        _limit: u64,
    ) -> Option<RunAnswer> {
        None
    }

    /// The program's standard output for this input; a subject without a
    /// program answers nothing.
    fn program_output(&mut self, _bytes: &[u8]) -> Option<Vec<u8>> {
        None
    }
}

/// The reference as a subject.
#[derive(Clone, Copy, Debug, Default)]
pub struct Reference;

impl Subject for Reference {
    fn check(&mut self, words: &[i32]) -> Verdict {
        reference::check(words)
    }

    fn generate(&mut self, words: &[i32], list: &mut [i32], scratch: &mut [i32]) -> Answer {
        let outcome = reference::generate(words, list.len(), scratch.len());
        list.copy_from_slice(&outcome.list);
        scratch.copy_from_slice(&outcome.scratch);
        Answer {
            number: outcome.number,
            row: outcome.row,
            conditions: outcome.conditions,
            words: outcome.words,
        }
    }

    fn line_at(&mut self, list: &[i32], index: i64) -> Line {
        reference::line_at(list, index)
    }

    fn walk(&mut self, list: &[i32], steps: usize) -> Vec<Line> {
        let mut reader = reference::ListReader::new(list);
        (0..steps).map(|_| reader.step()).collect()
    }

    fn generate_from_records(
        &mut self,
        records: &[[i32; 4]],
        list: &mut [i32],
        scratch: &mut [i32],
    ) -> Option<Answer> {
        Some(self.generate(&records.concat(), list, scratch))
    }

    fn smt(&mut self, list: &[i32], index: i64, text: &mut [u8]) -> Option<Written> {
        let written = reference::smt(list, index, text.len());
        text.copy_from_slice(&written.buffer);
        Some(Written {
            number: written.number,
            used: written.used,
        })
    }

    fn read_text(&mut self, text: &[u8], words: &mut [i32]) -> Option<ReadAnswer> {
        let answer = reference::read_text(text, words.len());
        let used = answer.words.len();
        words[..used].copy_from_slice(&answer.words);
        words[used..].fill(0);
        Some(ReadAnswer {
            number: answer.number as u8,
            place: answer.place,
            used,
        })
    }

    fn shorten(&mut self, list: &[i32], short: &mut [i32]) -> Option<Written> {
        let shortened = reference::shorten(list, short.len());
        short.copy_from_slice(&shortened.buffer);
        Some(Written {
            number: shortened.number,
            used: shortened.used,
        })
    }

    fn shorter(&mut self, old: &[i32], new: &[i32], index: i64) -> Option<ShorterPart> {
        Some(reference::shorter(old, new, index))
    }

    fn mend(&mut self, table: &[i32], new: &mut [i32], origins: &mut [i32]) -> Option<MendAnswer> {
        let mended = reference::mend(table, new.len(), origins.len());
        new.copy_from_slice(&mended.table);
        origins.copy_from_slice(&mended.origins);
        Some(MendAnswer {
            number: mended.number,
            row: mended.row,
            words: mended.words,
            dropped: mended.dropped,
            copied: mended.copied,
        })
    }

    fn run(&mut self, table: &[i32], lent: &mut LentRuns, limit: u64) -> Option<RunAnswer> {
        let watched = reference::watch(table, lent.stack, lent.variables, lent.marks, limit);
        Some(lent.take(watched))
    }

    fn go_on(
        &mut self,
        table: &[i32],
        lent: &mut LentRuns,
        height: usize,
        limit: u64,
    ) -> Option<RunAnswer> {
        let (stack, variables, marks) = (&*lent.stack, &*lent.variables, &*lent.marks);
        let watched = reference::go_on(table, stack, height, variables, marks, limit);
        Some(lent.take(watched))
    }

    fn program_output(&mut self, bytes: &[u8]) -> Option<Vec<u8>> {
        Some(reference::program_output(bytes))
    }
}
