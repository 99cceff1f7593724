//! The functions of the static library. A slice crosses as its place and its
//! length, and the answers are numbers that the caller lends.

use std::ptr::from_mut;

mod exported {
    use super::Record;

    extern "C" {
        pub fn leqwarti_check(
            table: *const i32,
            table_length: usize,
            number: *mut usize,
            row: *mut usize,
        );
        pub fn leqwarti_generate(
            table: *const i32,
            table_length: usize,
            list: *mut i32,
            list_length: usize,
            scratch: *mut i32,
            scratch_length: usize,
            number: *mut usize,
            row: *mut usize,
            conditions: *mut usize,
            words: *mut usize,
        );
        pub fn leqwarti_generate_records(
            records: *const Record,
            records_length: usize,
            list: *mut i32,
            list_length: usize,
            scratch: *mut i32,
            scratch_length: usize,
            number: *mut usize,
            row: *mut usize,
            conditions: *mut usize,
            words: *mut usize,
        );
        pub fn leqwarti_line(
            words: *const i32,
            words_length: usize,
            index: i32,
            number: *mut usize,
            kind: *mut usize,
            row: *mut usize,
            depth: *mut usize,
            start: *mut usize,
            end: *mut usize,
        );
        pub fn leqwarti_first_place(words: *const i32, words_length: usize, place: *mut usize);
        pub fn leqwarti_step(
            words: *const i32,
            words_length: usize,
            place: *mut usize,
            number: *mut usize,
            kind: *mut usize,
            row: *mut usize,
            depth: *mut usize,
            start: *mut usize,
            end: *mut usize,
        );
        pub fn leqwarti_smt(
            words: *const i32,
            words_length: usize,
            index: i32,
            text: *mut u8,
            text_length: usize,
            number: *mut usize,
            used: *mut usize,
        );
        pub fn leqwarti_read(
            text: *const u8,
            text_length: usize,
            words: *mut i32,
            words_length: usize,
            number: *mut usize,
            place: *mut usize,
            used: *mut usize,
        );
        pub fn leqwarti_shorten(
            list: *const i32,
            list_length: usize,
            short: *mut i32,
            short_length: usize,
            number: *mut usize,
            used: *mut usize,
        );
        pub fn leqwarti_shorter(
            old: *const i32,
            old_length: usize,
            new: *const i32,
            new_length: usize,
            index: i32,
            number: *mut usize,
            side: *mut usize,
            start: *mut usize,
            end: *mut usize,
        );
        pub fn leqwarti_mend(
            table: *const i32,
            table_length: usize,
            new: *mut i32,
            new_length: usize,
            origins: *mut i32,
            origins_length: usize,
            number: *mut usize,
            row: *mut usize,
            words: *mut usize,
            dropped: *mut usize,
            copied: *mut usize,
        );
        pub fn leqwarti_run(
            table: *const i32,
            table_length: usize,
            stack: *mut u32,
            stack_length: usize,
            variables: *mut i64,
            variables_length: usize,
            marks: *mut i64,
            marks_length: usize,
            limit: u64,
            number: *mut usize,
            row: *mut usize,
            steps: *mut u64,
            height: *mut usize,
        );
        pub fn leqwarti_go_on(
            table: *const i32,
            table_length: usize,
            stack: *mut u32,
            stack_length: usize,
            lent_height: usize,
            variables: *mut i64,
            variables_length: usize,
            marks: *mut i64,
            marks_length: usize,
            limit: u64,
            number: *mut usize,
            row: *mut usize,
            steps: *mut u64,
            height: *mut usize,
        );
    }
}

/// A row of a table: its kind and its three fields, an unused one 0.
#[derive(Clone, Copy, Debug, Default, PartialEq, Eq)]
#[repr(C)]
pub struct Record {
    pub kind: i32,
    pub first: i32,
    pub second: i32,
    pub third: i32,
}

/// Number and row, both 0 for an accepted table.
#[derive(Clone, Copy, Debug, Default, PartialEq, Eq)]
pub struct Verdict {
    pub number: usize,
    pub row: usize,
}

/// What the generator answers beside its buffers.
#[derive(Clone, Copy, Debug, Default, PartialEq, Eq)]
pub struct Answer {
    pub number: usize,
    pub row: usize,
    pub conditions: usize,
    pub words: usize,
}

/// What the list reader answers: the formula stands from `start` up to `end`, and
/// the row's loop in the bodies of `depth` loops, as a list tells since P9; 0 for a
/// list from before.
#[derive(Clone, Copy, Debug, Default, PartialEq, Eq)]
pub struct Line {
    pub number: usize,
    pub kind: usize,
    pub row: usize,
    pub depth: usize,
    pub start: usize,
    pub end: usize,
}

/// What the writers answer: a condition's text stands in the first `used` bytes,
/// a shortened list in the first `used` words.
#[derive(Clone, Copy, Debug, Default, PartialEq, Eq)]
pub struct Written {
    pub number: usize,
    pub used: usize,
}

/// What the reader of script text answers: the table stands in the first `used`
/// words. The place is a byte of the text, and 0 where nothing is refused.
#[derive(Clone, Copy, Debug, Default, PartialEq, Eq)]
pub struct ReadAnswer {
    pub number: usize,
    pub place: usize,
    pub used: usize,
}

/// What the shorter of two formulas is a part of: side 0 is the old list, 1 the
/// new one, and it stands there from `start` up to `end`.
#[derive(Clone, Copy, Debug, Default, PartialEq, Eq)]
pub struct ShorterPart {
    pub number: usize,
    pub side: usize,
    pub start: usize,
    pub end: usize,
}

/// What the mender answers: the new table stands in the first `words` words, and the
/// old row of each new one in as many words as it has rows. `dropped` counts the old
/// rows that the script does not reach, `copied` how many more rows the new table has
/// than it reaches.
#[derive(Clone, Copy, Debug, Default, PartialEq, Eq)]
pub struct MendAnswer {
    pub number: usize,
    pub row: usize,
    pub words: usize,
    pub dropped: usize,
    pub copied: usize,
}

/// What the stepping machine answers: the steps that it has done in this call, whole
/// ones alone, and how many rows are left on the stack. The row is that of the statement
/// that is due, which is never a sequence; 0 where the run has ended, and where the table
/// is refused that of the refusal.
#[derive(Clone, Copy, Debug, Default, PartialEq, Eq)]
pub struct RunAnswer {
    pub number: usize,
    pub row: usize,
    pub steps: u64,
    pub height: usize,
}

/// What the stepping machine is lent: a word of the stack for each row of the table at
/// least, 1,024 values for the variables and 2,048 for the marks, each by its number or
/// by its loop's row.
#[derive(Debug)]
pub struct Lent<'a> {
    pub stack: &'a mut [u32],
    pub variables: &'a mut [i64],
    pub marks: &'a mut [i64],
}

/// The check of a table.
pub fn check(table: &[i32]) -> Verdict {
    let mut answer = Verdict::default();
    // SAFETY: the entry is proved safe for every table; the pointers are those
    // of live borrows for the whole call, and the lengths are theirs.
    unsafe {
        exported::leqwarti_check(
            table.as_ptr(),
            table.len(),
            from_mut(&mut answer.number),
            from_mut(&mut answer.row),
        );
    }
    answer
}

/// An entry that generates, from a table made of `Row`s.
type Generator<Row> = unsafe extern "C" fn(
    *const Row,
    usize,
    *mut i32,
    usize,
    *mut i32,
    usize,
    *mut usize,
    *mut usize,
    *mut usize,
    *mut usize,
);

/// # Safety
///
/// `entry` is one of the library's, and takes rows laid out as `Row` is.
unsafe fn answer_of<Row>(
    entry: Generator<Row>,
    rows: &[Row],
    list: &mut [i32],
    scratch: &mut [i32],
) -> Answer {
    let mut answer = Answer::default();
    // SAFETY: as in `check`, for all rows and every length of the buffers.
    unsafe {
        entry(
            rows.as_ptr(),
            rows.len(),
            list.as_mut_ptr(),
            list.len(),
            scratch.as_mut_ptr(),
            scratch.len(),
            from_mut(&mut answer.number),
            from_mut(&mut answer.row),
            from_mut(&mut answer.conditions),
            from_mut(&mut answer.words),
        );
    }
    answer
}

/// The generator, which needs two words of scratch for each row. Whatever both
/// buffers held before the call, after it the list is followed by zeros and the
/// scratch is all zeros.
pub fn generate(table: &[i32], list: &mut [i32], scratch: &mut [i32]) -> Answer {
    // SAFETY: the entry takes words.
    unsafe { answer_of(exported::leqwarti_generate, table, list, scratch) }
}

/// The generator on a table of row records: the answer of [`generate`] on four
/// words to a row.
pub fn generate_records(records: &[Record], list: &mut [i32], scratch: &mut [i32]) -> Answer {
    // SAFETY: the entry takes records, which are `repr(C)` there too.
    unsafe { answer_of(exported::leqwarti_generate_records, records, list, scratch) }
}

/// The list reader at an index from the front.
pub fn line_at(words: &[i32], index: i32) -> Line {
    let mut line = Line::default();
    // SAFETY: as in `check`, for all words and every index.
    unsafe {
        exported::leqwarti_line(
            words.as_ptr(),
            words.len(),
            index,
            from_mut(&mut line.number),
            from_mut(&mut line.kind),
            from_mut(&mut line.row),
            from_mut(&mut line.depth),
            from_mut(&mut line.start),
            from_mut(&mut line.end),
        );
    }
    line
}

/// Where a reader of the words stands first. It reads the whole list once.
pub fn first_place(words: &[i32]) -> usize {
    let mut place = 0;
    // SAFETY: as in `check`, for all words.
    unsafe {
        exported::leqwarti_first_place(words.as_ptr(), words.len(), from_mut(&mut place));
    }
    place
}

/// A reader's step: the line that ends at the place, which is moved back
/// before it. It reads the words of that line alone.
///
/// The numbers are lent one by one: a struct that is lent by its fields and then
/// returned is copied as a whole right after the fields were stored, which costs
/// as much as the step.
pub fn step(words: &[i32], place: &mut usize) -> Line {
    let (mut number, mut kind, mut row, mut depth) = (0, 0, 0, 0);
    let (mut start, mut end) = (0, 0);
    // SAFETY: as in `check`, for all words and every place.
    unsafe {
        exported::leqwarti_step(
            words.as_ptr(),
            words.len(),
            from_mut(place),
            from_mut(&mut number),
            from_mut(&mut kind),
            from_mut(&mut row),
            from_mut(&mut depth),
            from_mut(&mut start),
            from_mut(&mut end),
        );
    }
    Line {
        number,
        kind,
        row,
        depth,
        start,
        end,
    }
}

/// The condition at an index from the front as an SMT-LIB 2 script. Whatever
/// the buffer held before the call, after it the text is followed by zeros;
/// refused, the buffer is all zeros. The deepest list takes 2,307 KiB of the
/// caller's stack, more than a thread of Rust's has by default;
/// [`leqwarti::smt`](crate::smt) sees to that.
pub fn smt(words: &[i32], index: i32, text: &mut [u8]) -> Written {
    let mut written = Written::default();
    // SAFETY: as in `check`, for all words, every index and every length of
    // the buffer.
    unsafe {
        exported::leqwarti_smt(
            words.as_ptr(),
            words.len(),
            index,
            text.as_mut_ptr(),
            text.len(),
            from_mut(&mut written.number),
            from_mut(&mut written.used),
        );
    }
    written
}

/// The table of a script's text. Whatever the buffer held before the call, after
/// it the table is followed by zeros; refused, the buffer is all zeros.
pub fn read_text(text: &[u8], words: &mut [i32]) -> ReadAnswer {
    let mut answer = ReadAnswer::default();
    // SAFETY: as in `check`, for all bytes and every length of the buffer.
    unsafe {
        exported::leqwarti_read(
            text.as_ptr(),
            text.len(),
            words.as_mut_ptr(),
            words.len(),
            from_mut(&mut answer.number),
            from_mut(&mut answer.place),
            from_mut(&mut answer.used),
        );
    }
    answer
}

/// A list with its conditions shortened, in the form of the one that is read.
/// Whatever the buffer held before the call, after it the new list is followed by
/// zeros; refused, the buffer is all zeros. The deepest list takes 400 KiB of the
/// caller's stack.
pub fn shorten(list: &[i32], short: &mut [i32]) -> Written {
    let mut written = Written::default();
    // SAFETY: as in `check`, for all words and every length of the buffer.
    unsafe {
        exported::leqwarti_shorten(
            list.as_ptr(),
            list.len(),
            short.as_mut_ptr(),
            short.len(),
            from_mut(&mut written.number),
            from_mut(&mut written.used),
        );
    }
    written
}

/// Where the shorter of two lists' formulas at an index stands, the old one if
/// equal; refused, the empty part at the old list's front.
pub fn shorter(old: &[i32], new: &[i32], index: i32) -> ShorterPart {
    let mut part = ShorterPart::default();
    // SAFETY: as in `check`, for all words of both lists and every index.
    unsafe {
        exported::leqwarti_shorter(
            old.as_ptr(),
            old.len(),
            new.as_ptr(),
            new.len(),
            index,
            from_mut(&mut part.number),
            from_mut(&mut part.side),
            from_mut(&mut part.start),
            from_mut(&mut part.end),
        );
    }
    part
}

/// A table in which two rows may link to one, written anew with a copy for every use.
/// Whatever both buffers held before the call, after it the new table and the old rows
/// of its rows are followed by zeros; refused, both are all zeros. Every table takes
/// 32 KiB of the caller's stack.
pub fn mend(table: &[i32], new: &mut [i32], origins: &mut [i32]) -> MendAnswer {
    let mut answer = MendAnswer::default();
    // SAFETY: as in `check`, for all words and every length of the buffers.
    unsafe {
        exported::leqwarti_mend(
            table.as_ptr(),
            table.len(),
            new.as_mut_ptr(),
            new.len(),
            origins.as_mut_ptr(),
            origins.len(),
            from_mut(&mut answer.number),
            from_mut(&mut answer.row),
            from_mut(&mut answer.words),
            from_mut(&mut answer.dropped),
            from_mut(&mut answer.copied),
        );
    }
    answer
}

/// Runs a table's script from the values that are lent, for `limit` steps at most. The
/// stack gets the rows that are still to be done, from word 0 on, the next one last, and
/// zeros above; whatever it held before is lost. Refused with 1 to 10 or 51, all that is
/// lent is left as it was.
pub fn run(table: &[i32], lent: &mut Lent, limit: u64) -> RunAnswer {
    let mut answer = RunAnswer::default();
    // SAFETY: as in `check`, for all words and values, every length and every limit.
    unsafe {
        exported::leqwarti_run(
            table.as_ptr(),
            table.len(),
            lent.stack.as_mut_ptr(),
            lent.stack.len(),
            lent.variables.as_mut_ptr(),
            lent.variables.len(),
            lent.marks.as_mut_ptr(),
            lent.marks.len(),
            limit,
            from_mut(&mut answer.number),
            from_mut(&mut answer.row),
            from_mut(&mut answer.steps),
            from_mut(&mut answer.height),
        );
    }
    answer
}

/// Goes on from the rows in the first `height` words of the stack, the next one last, in
/// place of starting with the script's statement; so from what a call before has left,
/// with the height that it answered. The stack has a word more for each of these rows.
pub fn go_on(table: &[i32], lent: &mut Lent, height: usize, limit: u64) -> RunAnswer {
    let mut answer = RunAnswer::default();
    // SAFETY: as in `check`, for all words, values and rows on the stack, every length,
    // height and limit.
    unsafe {
        exported::leqwarti_go_on(
            table.as_ptr(),
            table.len(),
            lent.stack.as_mut_ptr(),
            lent.stack.len(),
            height,
            lent.variables.as_mut_ptr(),
            lent.variables.len(),
            lent.marks.as_mut_ptr(),
            lent.marks.len(),
            limit,
            from_mut(&mut answer.number),
            from_mut(&mut answer.row),
            from_mut(&mut answer.steps),
            from_mut(&mut answer.height),
        );
    }
    answer
}
