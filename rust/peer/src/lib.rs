//! A yardstick for the proved library: document 01 and requests P1, P2 and P4 to P11
//! written by hand for speed.
//!
//! Nothing of it is proved. `fuzz/tests/peer.rs` compares it with the proved
//! library word for word, and the benchmark times the library beside it; it has
//! no other use.
//!
//! [`check`] reads the table once, and again only where a frozen name or a mark
//! occurs. [`generate`] writes the list from front to back, keeps no formula,
//! and copies what stands in the list already; where there is a div or mod, it
//! notes once which rows divide. What follows each statement and what the
//! assignments passed assign is in the caller's scratch, as in the proved library;
//! where their values stand in the list is in an array of its own, and so are the
//! parts still to be written. The reader goes over the words of a line once. [`smt`]
//! writes a part once and copies it where it stands again. [`read_text`] goes over
//! the text once. [`shorten`] goes over a formula once to find its nodes and once
//! back over these. [`mend`] goes over the old rows once, or twice where there are
//! marks, and over the new ones once. [`run`] and [`go_on`] change the lent stack and
//! values in place; the operations that wait for an operand are in an array. Nothing is taken from the heap, and working
//! memory is cleared only as far as the table has rows, or assigns to variables; the
//! module `stack` has the only `unsafe` code.

mod check;
mod divisors;
mod faults;
mod generate;
mod machine;
mod mend;
mod names;
mod reader;
mod scopes;
mod script;
mod shorten;
mod spell;
mod stack;
mod text;
mod values;
mod weakest;

pub use check::check;
pub use generate::generate;
pub use machine::{go_on, run};
pub use mend::mend;
pub use reader::{first_place, line_at, step};
pub use script::read_text;
pub use shorten::{shorten, shorter};
pub use text::smt;

/// A row of the table: kind, first, second, third.
type Row = [i32; 4];

const MOST_ROWS: usize = 2_048;

const LONGEST_LIST: usize = 16_384;

const VARIABLES: usize = 1_024;

/// The largest number after a constant, a variable and a mark; no number is as
/// small as that of another kind.
const LARGEST_NUMBER: [i64; 10] = {
    let mut largest = [-1; 10];
    largest[1] = u32::MAX as i64;
    largest[2] = VARIABLES as i64 - 1;
    largest[9] = 2_047;
    largest
};

/// Whether the variable of this number is frozen.
#[inline(always)]
fn is_frozen(variable: i32) -> bool {
    (128..256).contains(&variable)
}

/// Number and row, both 0 for an accepted table.
#[derive(Clone, Copy, Debug, Default, PartialEq, Eq)]
pub struct Verdict {
    pub number: usize,
    pub row: usize,
}

/// What the generator answers beside its buffers.
#[derive(Clone, Copy, Debug, Default, PartialEq, Eq)]
pub struct Answer {
    pub number: usize,
    pub row: usize,
    pub conditions: usize,
    pub words: usize,
}

/// What the list reader answers: the formula stands from `start` up to `end`.
#[derive(Clone, Copy, Debug, Default, PartialEq, Eq)]
pub struct Line {
    pub number: usize,
    pub kind: usize,
    pub row: usize,
    pub depth: usize,
    pub start: usize,
    pub end: usize,
}

/// What the writer of a condition's text answers beside the text, and the shortening
/// of a list beside the new one.
#[derive(Clone, Copy, Debug, Default, PartialEq, Eq)]
pub struct Written {
    pub number: usize,
    pub used: usize,
}

/// What the reader of a script's text answers beside the table.
#[derive(Clone, Copy, Debug, Default, PartialEq, Eq)]
pub struct ReadAnswer {
    pub number: usize,
    pub place: usize,
    pub used: usize,
}

/// What the choice between two lists answers: side 0 is the old list, 1 the new one.
#[derive(Clone, Copy, Debug, Default, PartialEq, Eq)]
pub struct ShorterPart {
    pub number: usize,
    pub side: usize,
    pub start: usize,
    pub end: usize,
}

/// What the mender answers beside the new table and the run of old rows.
#[derive(Clone, Copy, Debug, Default, PartialEq, Eq)]
pub struct MendAnswer {
    pub number: usize,
    pub row: usize,
    pub words: usize,
    pub dropped: usize,
    pub copied: usize,
}

/// What the stepping machine answers beside the stack and the values: the steps are whole
/// ones, and the height is how many rows are left on the stack.
#[derive(Clone, Copy, Debug, Default, PartialEq, Eq)]
pub struct RunAnswer {
    pub number: usize,
    pub row: usize,
    pub steps: u64,
    pub height: usize,
}
