//! The exported functions with nothing between: every buffer has memory beside it that may not be
//! touched, at either end in turn, and the numbers that are lent for an answer hold junk before the
//! call. (The crate `leqwarti` lends zeros, which a function that does not answer would leave.)

use fuzz::guarded::{Edge, Guarded, EDGES};
use fuzz::lent::Cell;
use fuzz::Call;
// The library is linked by this crate.
use leqwarti as _;

/// A row as the functions take it.
type Record = [i32; 4];

type Number = *mut usize;

extern "C" {
    fn leqwarti_check(table: *const i32, length: usize, number: Number, row: Number);
    fn leqwarti_generate(
        table: *const i32,
        length: usize,
        list: *mut i32,
        list_length: usize,
        scratch: *mut i32,
        scratch_length: usize,
        number: Number,
        row: Number,
        conditions: Number,
        words: Number,
    );
    fn leqwarti_generate_records(
        records: *const Record,
        length: usize,
        list: *mut i32,
        list_length: usize,
        scratch: *mut i32,
        scratch_length: usize,
        number: Number,
        row: Number,
        conditions: Number,
        words: Number,
    );
    fn leqwarti_line(
        words: *const i32,
        length: usize,
        index: i32,
        number: Number,
        kind: Number,
        row: Number,
        depth: Number,
        start: Number,
        end: Number,
    );
    fn leqwarti_first_place(words: *const i32, length: usize, place: Number);
    fn leqwarti_step(
        words: *const i32,
        length: usize,
        place: Number,
        number: Number,
        kind: Number,
        row: Number,
        depth: Number,
        start: Number,
        end: Number,
    );
    fn leqwarti_smt(
        words: *const i32,
        length: usize,
        index: i32,
        text: *mut u8,
        text_length: usize,
        number: Number,
        used: Number,
    );
    fn leqwarti_shorten(
        list: *const i32,
        length: usize,
        short: *mut i32,
        short_length: usize,
        number: Number,
        used: Number,
    );
    fn leqwarti_shorter(
        old: *const i32,
        old_length: usize,
        new: *const i32,
        new_length: usize,
        index: i32,
        number: Number,
        side: Number,
        start: Number,
        end: Number,
    );
    fn leqwarti_mend(
        table: *const i32,
        length: usize,
        new: *mut i32,
        new_length: usize,
        origins: *mut i32,
        origins_length: usize,
        number: Number,
        row: Number,
        words: Number,
        dropped: Number,
        copied: Number,
    );
    fn leqwarti_run(
        table: *const i32,
        length: usize,
        stack: *mut u32,
        stack_length: usize,
        variables: *mut i64,
        variables_length: usize,
        marks: *mut i64,
        marks_length: usize,
        limit: u64,
        number: Number,
        row: Number,
        steps: *mut u64,
        height: Number,
    );
    fn leqwarti_go_on(
        table: *const i32,
        length: usize,
        stack: *mut u32,
        stack_length: usize,
        lent_height: usize,
        variables: *mut i64,
        variables_length: usize,
        marks: *mut i64,
        marks_length: usize,
        limit: u64,
        number: Number,
        row: Number,
        steps: *mut u64,
        height: Number,
    );
}

/// What a number holds before a call.
const JUNK: usize = 0xA5A5_5A5A_DEAD_BEEF;

/// Junk for the longest buffers.
const MOST_CELLS: usize = 200_000;

/// What a call is given and what it writes, in guarded memory that is used again.
pub struct Bare {
    calls: usize,
    words: Guarded<i32>,
    new_words: Guarded<i32>,
    records: Guarded<Record>,
    numbers: Guarded<usize>,
    pub list: Guarded<i32>,
    pub scratch: Guarded<i32>,
    pub text: Guarded<u8>,
    pub stack: Guarded<u32>,
    pub variables: Guarded<i64>,
    pub marks: Guarded<i64>,
    junk_words: Vec<i32>,
    junk_bytes: Vec<u8>,
}

impl Bare {
    pub fn new() -> Bare {
        Bare {
            calls: 0,
            words: Guarded::new(&[], Edge::End),
            new_words: Guarded::new(&[], Edge::End),
            records: Guarded::new(&[], Edge::End),
            numbers: Guarded::new(&[], Edge::End),
            list: Guarded::new(&[], Edge::End),
            scratch: Guarded::new(&[], Edge::End),
            text: Guarded::new(&[], Edge::End),
            stack: Guarded::new(&[], Edge::End),
            variables: Guarded::new(&[], Edge::End),
            marks: Guarded::new(&[], Edge::End),
            junk_words: (0..MOST_CELLS).map(i32::junk).collect(),
            junk_bytes: (0..MOST_CELLS).map(u8::junk).collect(),
        }
    }

    /// The edges of five buffers: every choice comes in turn.
    fn edges(&mut self) -> [Edge; 5] {
        self.calls += 1;
        let calls = self.calls;
        std::array::from_fn(|buffer| EDGES[(calls >> buffer) % 2])
    }

    /// Numbers that hold junk, each with its place.
    fn lend<const N: usize>(&mut self, first: Option<usize>, edge: Edge) -> [Number; N] {
        let mut before = [JUNK; N];
        if let Some(first) = first {
            before[0] = first;
        }
        self.numbers.hold(&before, edge);
        let numbers = self.numbers.as_mut_slice().as_mut_ptr();
        std::array::from_fn(|place| numbers.wrapping_add(place))
    }

    /// The numbers after a call.
    fn told<const N: usize>(&self) -> [usize; N] {
        assert!(self.numbers.margin_is_kept());
        self.numbers.as_slice().try_into().expect("so many numbers")
    }

    /// Holds the words of a table or of a list, for the calls that follow.
    pub fn hold(&mut self, words: &[i32]) {
        let edges = self.edges();
        self.words.hold(words, edges[0]);
    }

    /// Whether the calls since left the words that they were given as they were.
    pub fn keeps(&self, words: &[i32]) -> bool {
        self.words.as_slice() == words && self.words.margin_is_kept()
    }

    /// Where the words stand, and their number.
    fn words(&self) -> (*const i32, usize) {
        let words = self.words.as_slice();
        (words.as_ptr(), words.len())
    }

    /// Number and row.
    pub fn check(&mut self) -> [usize; 2] {
        let edges = self.edges();
        let [number, row] = self.lend(None, edges[1]);
        let (table, length) = self.words();
        // SAFETY: the function is proved safe for all words, which are borrowed for the call.
        unsafe { leqwarti_check(table, length, number, row) };
        self.told()
    }

    /// Number, row, conditions and words; the buffers are `list` and `scratch`.
    pub fn generate(&mut self, list: usize, scratch: usize) -> [usize; 4] {
        let [number, row, conditions, words] = self.lend_with_buffers(list, scratch);
        let (table, length) = self.words();
        // SAFETY: as in `check`.
        unsafe {
            leqwarti_generate(
                table,
                length,
                self.list.as_mut_slice().as_mut_ptr(),
                list,
                self.scratch.as_mut_slice().as_mut_ptr(),
                scratch,
                number,
                row,
                conditions,
                words,
            );
        }
        self.told_with_buffers()
    }

    /// The same of the table's rows as records, where it has whole rows alone.
    pub fn generate_records(&mut self, list: usize, scratch: usize) -> [usize; 4] {
        let edges = self.edges();
        let records = self.words.as_slice().as_chunks().0;
        self.records.hold(records, edges[4]);
        let [number, row, conditions, words] = self.lend_with_buffers(list, scratch);
        // SAFETY: as in `check`; a record is four words.
        unsafe {
            leqwarti_generate_records(
                self.records.as_slice().as_ptr(),
                self.records.as_slice().len(),
                self.list.as_mut_slice().as_mut_ptr(),
                list,
                self.scratch.as_mut_slice().as_mut_ptr(),
                scratch,
                number,
                row,
                conditions,
                words,
            );
        }
        let records = self.words.as_slice().as_chunks().0;
        assert!(self.records.as_slice() == records && self.records.margin_is_kept());
        self.told_with_buffers()
    }

    fn lend_with_buffers<const N: usize>(&mut self, list: usize, scratch: usize) -> [Number; N] {
        let edges = self.edges();
        self.list.hold(&self.junk_words[..list], edges[2]);
        self.scratch.hold(&self.junk_words[..scratch], edges[3]);
        self.lend(None, edges[1])
    }

    fn told_with_buffers<const N: usize>(&self) -> [usize; N] {
        assert!(self.list.margin_is_kept() && self.scratch.margin_is_kept());
        self.told()
    }

    /// Number, kind, row, depth, start and end.
    pub fn line(&mut self, index: i32) -> [usize; 6] {
        let edges = self.edges();
        let [number, kind, row, depth, start, end] = self.lend(None, edges[1]);
        let (words, length) = self.words();
        // SAFETY: as in `check`.
        unsafe { leqwarti_line(words, length, index, number, kind, row, depth, start, end) };
        self.told()
    }

    pub fn first_place(&mut self) -> usize {
        let edges = self.edges();
        let [place] = self.lend(None, edges[1]);
        let (words, length) = self.words();
        // SAFETY: as in `check`.
        unsafe { leqwarti_first_place(words, length, place) };
        let [place] = self.told();
        place
    }

    /// The next place, then number, kind, row, depth, start and end.
    pub fn step(&mut self, place: usize) -> [usize; 7] {
        let edges = self.edges();
        let [place, number, kind, row, depth, start, end] = self.lend(Some(place), edges[1]);
        let (words, length) = self.words();
        // SAFETY: as in `check`.
        unsafe { leqwarti_step(words, length, place, number, kind, row, depth, start, end) };
        self.told()
    }

    /// Number and bytes used; the buffer is `text`.
    pub fn smt(&mut self, index: i32, room: usize) -> [usize; 2] {
        let edges = self.edges();
        self.text.hold(&self.junk_bytes[..room], edges[2]);
        let [number, used] = self.lend(None, edges[1]);
        let (words, length) = self.words();
        let text = self.text.as_mut_slice().as_mut_ptr();
        // SAFETY: as in `check`.
        unsafe { leqwarti_smt(words, length, index, text, room, number, used) };
        assert!(self.text.margin_is_kept());
        self.told()
    }

    /// Number and words used; the buffer is `list`.
    pub fn shorten(&mut self, room: usize) -> [usize; 2] {
        let edges = self.edges();
        self.list.hold(&self.junk_words[..room], edges[2]);
        let [number, used] = self.lend(None, edges[1]);
        let (list, length) = self.words();
        let short = self.list.as_mut_slice().as_mut_ptr();
        // SAFETY: as in `check`.
        unsafe { leqwarti_shorten(list, length, short, room, number, used) };
        assert!(self.list.margin_is_kept());
        self.told()
    }

    /// Number, side, start and end, of the words that are held and these.
    pub fn shorter(&mut self, new: &[i32], index: i32) -> [usize; 4] {
        let edges = self.edges();
        self.new_words.hold(new, edges[3]);
        let [number, side, start, end] = self.lend(None, edges[1]);
        let (old, length) = self.words();
        let held = self.new_words.as_slice();
        let (new_words, new_length) = (held.as_ptr(), held.len());
        // SAFETY: as in `check`, of both lists.
        unsafe {
            leqwarti_shorter(
                old, length, new_words, new_length, index, number, side, start, end,
            );
        }
        assert!(self.new_words.as_slice() == new && self.new_words.margin_is_kept());
        self.told()
    }

    /// Number, row, words, rows dropped and rows copied again; the buffers are `list` for the new
    /// table and `scratch` for the old rows.
    pub fn mend(&mut self, new: usize, origins: usize) -> [usize; 5] {
        let [number, row, words, dropped, copied] = self.lend_with_buffers(new, origins);
        let (table, length) = self.words();
        // SAFETY: as in `check`.
        unsafe {
            leqwarti_mend(
                table,
                length,
                self.list.as_mut_slice().as_mut_ptr(),
                new,
                self.scratch.as_mut_slice().as_mut_ptr(),
                origins,
                number,
                row,
                words,
                dropped,
                copied,
            );
        }
        self.told_with_buffers()
    }

    /// Number, row, steps and height; the buffers are `stack`, `variables` and `marks`. With values
    /// at the end of what may be touched, their lengths are told as so many more: none of these is
    /// to be touched.
    pub fn run(&mut self, call: &Call, more: usize) -> [usize; 4] {
        let edges = self.edges();
        self.stack.hold(&call.stack, edges[2]);
        self.variables.hold(&call.variables, edges[3]);
        self.marks.hold(&call.marks, edges[4]);
        let length = |length, edge| length + if edge == Edge::End { more } else { 0 };
        let variables_length = length(call.variables.len(), edges[3]);
        let marks_length = length(call.marks.len(), edges[4]);
        let [number, row, steps, height] = self.lend(None, edges[1]);
        let (table, table_length) = self.words();
        let stack = self.stack.as_mut_slice().as_mut_ptr();
        let variables = self.variables.as_mut_slice().as_mut_ptr();
        let marks = self.marks.as_mut_slice().as_mut_ptr();
        // SAFETY: as in `check`; the functions touch no more values than there are.
        unsafe {
            match call.height {
                None => leqwarti_run(
                    table,
                    table_length,
                    stack,
                    call.stack.len(),
                    variables,
                    variables_length,
                    marks,
                    marks_length,
                    call.limit,
                    number,
                    row,
                    steps.cast(),
                    height,
                ),
                Some(lent_height) => leqwarti_go_on(
                    table,
                    table_length,
                    stack,
                    call.stack.len(),
                    lent_height,
                    variables,
                    variables_length,
                    marks,
                    marks_length,
                    call.limit,
                    number,
                    row,
                    steps.cast(),
                    height,
                ),
            }
        }
        assert!(self.stack.margin_is_kept());
        assert!(self.variables.margin_is_kept() && self.marks.margin_is_kept());
        self.told()
    }
}
