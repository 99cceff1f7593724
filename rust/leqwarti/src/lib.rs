//! The proved verification-condition generator, for Rust callers.
//!
//! A script comes as a table of rows, four words to a row. [`plan`] lists the
//! conditions to be proved of it. If all of them are true in every state, then
//! every run from a start that meets the script's precondition ends, fails no
//! assertion, divides by no zero and meets the postcondition, and a loop begins
//! its body at most v + 1 times on each arrival with variant v.
//!
//! ```
//! use leqwarti::ConditionKind;
//!
//! // From 0 <= v0: while 0 < v0, invariant 0 <= v0, variant v0, do v0 := v0 - 1; then v0 = 0.
//! let table = [
//!     1, 0, 0, 0, /**/ 2, 0, 0, 0, /**/ 19, 0, 1, 0, // 2: precondition
//!     1, 0, 0, 0, /**/ 2, 0, 0, 0, /**/ 18, 3, 4, 0, // 5: guard
//!     1, 0, 0, 0, /**/ 2, 0, 0, 0, /**/ 19, 6, 7, 0, // 8: invariant
//!     2, 0, 0, 0, /**/ 37, 8, 9, 0, // 10: note
//!     2, 0, 0, 0, /**/ 1, 1, 0, 0, /**/ 4, 11, 12, 0, /**/ 33, 0, 13, 0, // 14: body
//!     36, 5, 10, 14, // 15: while
//!     2, 0, 0, 0, /**/ 1, 0, 0, 0, /**/ 20, 16, 17, 0, // 18: postcondition
//!     48, 2, 15, 18, // 19: script
//! ];
//! let plan = leqwarti::plan(&table)?;
//! assert_eq!(plan.conditions().len(), 4);
//!
//! let exit = plan.conditions().next().unwrap();
//! assert_eq!((exit.kind, exit.row, exit.depth), (ConditionKind::Exit, 15, 0));
//! assert_eq!(
//!     exit.formula.to_string(),
//!     "((0 <= v0) and (not (0 < v0))) implies (v0 = 0)"
//! );
//! # Ok::<(), leqwarti::Refusal>(())
//! ```
//!
//! Every other table is refused, with the reason and the row:
//!
//! ```
//! use leqwarti::Reason;
//!
//! let refusal = leqwarti::plan(&[16, 0, 0, 0, 99, 0, 0, 0]).unwrap_err();
//! assert_eq!((refusal.reason, refusal.row), (Reason::UnknownKind, 1));
//! ```
//!
//! A list is words that can be stored, and [`Plan::read`] reads it again. Since P9
//! ("How deep was that loop?") it has a fourth word in each trailer, how many loops
//! have the named one in their bodies, and ends in minus the number of conditions.
//! Lists from before, with trailers of three words and the number itself at the end,
//! are read by everything that reads a list, with depth 0.
//!
//! A condition is also written as a script for solvers, with [`Plan::smt`],
//! [`Plan::shortened`] has shorter conditions that hold in the same states,
//! [`read_text`] makes a table of a script that comes as text, and [`mend`] one of
//! a table in which two rows link to one. A [`Machine`] runs a script step by step,
//! with values of 64 bits.
//!
//! The check, the generator, the list reader, the writer of solvers' scripts, the
//! reader of text, the shortening of lists, the choice between two lists, the mender
//! and the stepping machine are functions of a static library whose contracts are
//! proved; this crate adds types, and the text of formulas and refusals, which are
//! not. A stack of 512 KiB is enough for the deepest scripts and lists (a thread of
//! Rust's has 2 MiB by default); [`smt`] takes a stack of its own where it needs more.

mod condition;
pub mod entries;
mod formula;
mod machine;
mod mend;
mod refusal;
mod shorten;
mod smt;
mod text;

use entries::Answer;

pub use condition::{Condition, ConditionKind, Conditions, Plan};
pub use entries::{Lent, Record};
pub use formula::Formula;
pub use machine::{run_into, Machine, Ran, Stop};
pub use mend::{mend, mend_into, Mended, MendedParts};
pub use refusal::{Reason, Refusal};
pub use shorten::{shorten, shorter};
pub use smt::{smt, LONGEST_TEXT};
pub use text::{read_text, TextRefusal, LONGEST_SCRIPT};

/// How many variables there are; 128 to 255 of them are frozen.
pub const VARIABLES: usize = 1_024;

/// How many marks there are, one for each row that a table may have.
pub const MARKS: usize = MOST_ROWS;

/// The most rows that a table has.
const MOST_ROWS: usize = 2_048;

/// The most words that a table has: 2,048 rows.
pub const LARGEST_TABLE: usize = 4 * MOST_ROWS;

/// The most words that a list has.
pub const LONGEST_LIST: usize = 16_384;

/// The words of scratch that suffice for every table, whatever the room.
pub const LARGEST_SCRATCH: usize = scratch_words(MOST_ROWS);

/// The words of scratch that a table of so many rows needs: two a row, whatever
/// the room. A table of more than 2,048 rows is refused whatever is lent, so none
/// needs more than [`LARGEST_SCRATCH`].
///
/// ```
/// assert_eq!(leqwarti::scratch_words(4), 8);
/// assert_eq!(leqwarti::scratch_words(2_048), leqwarti::LARGEST_SCRATCH);
/// assert_eq!(leqwarti::scratch_words(usize::MAX), leqwarti::LARGEST_SCRATCH);
/// ```
pub const fn scratch_words(rows: usize) -> usize {
    if rows < MOST_ROWS {
        2 * rows
    } else {
        2 * MOST_ROWS
    }
}

/// Checks a table without listing anything.
///
/// ```
/// assert!(leqwarti::check(&[16, 0, 0, 0, 32, 0, 0, 0, 16, 0, 0, 0, 48, 0, 1, 2]).is_ok());
/// assert!(leqwarti::check(&[]).is_err());
/// ```
pub fn check(table: &[i32]) -> Result<(), Refusal> {
    let verdict = entries::check(table);
    Refusal::unless_zero(verdict.number, verdict.row)
}

/// Lists the conditions of a table's script, with room for the longest list.
pub fn plan(table: &[i32]) -> Result<Plan, Refusal> {
    let rows = table.len() / 4;
    with_longest_list(rows, |list, scratch| {
        entries::generate(table, list, scratch)
    })
}

/// The same for a table of row records.
///
/// ```
/// use leqwarti::{Reason, Record};
///
/// let row = |kind, first, second, third| Record { kind, first, second, third };
/// let mut skip = [row(16, 0, 0, 0), row(32, 0, 0, 0), row(16, 0, 0, 0), row(48, 0, 1, 2)];
/// assert_eq!(leqwarti::plan_records(&skip)?.words(), [25, 16, 16, 4, 3, 3, 0, -1]);
///
/// skip[1].kind = 99;
/// let refusal = leqwarti::plan_records(&skip).unwrap_err();
/// assert_eq!((refusal.reason, refusal.row), (Reason::UnknownKind, 1));
/// # Ok::<(), leqwarti::Refusal>(())
/// ```
pub fn plan_records(records: &[Record]) -> Result<Plan, Refusal> {
    with_longest_list(records.len(), |list, scratch| {
        entries::generate_records(records, list, scratch)
    })
}

fn with_longest_list(
    rows: usize,
    generate: impl FnOnce(&mut [i32], &mut [i32]) -> Answer,
) -> Result<Plan, Refusal> {
    let mut list = vec![0; LONGEST_LIST];
    let answer = generate(&mut list, &mut vec![0; scratch_words(rows)]);
    Refusal::unless_zero(answer.number, answer.row)?;
    list.truncate(answer.words);
    Plan::read(list)
}

/// Lists the conditions into buffers of the caller's, and allocates nothing:
/// the words of the list, at the front of `list`.
///
/// The room is the length of `list`, or 16,384 where it is longer; `scratch`
/// must hold two words for each row of the table ([`scratch_words`]). Whatever
/// they held, afterwards zeros follow the list, and the scratch is all zeros;
/// after a refusal both are.
///
/// ```
/// use leqwarti::Reason;
///
/// let skip = [16, 0, 0, 0, 32, 0, 0, 0, 16, 0, 0, 0, 48, 0, 1, 2];
/// let (mut list, mut scratch) = ([7; 10], [7; 8]);
/// let words = leqwarti::plan_into(&skip, &mut list, &mut scratch)?;
/// assert_eq!(words, [25, 16, 16, 4, 3, 3, 0, -1]);
///
/// let refusal = leqwarti::plan_into(&skip, &mut list, &mut scratch[..7]).unwrap_err();
/// assert_eq!(refusal.reason, Reason::ScratchTooShort);
/// assert_eq!(list, [0; 10]);
/// # Ok::<(), leqwarti::Refusal>(())
/// ```
pub fn plan_into<'a>(
    table: &[i32],
    list: &'a mut [i32],
    scratch: &mut [i32],
) -> Result<&'a [i32], Refusal> {
    let answer = entries::generate(table, list, scratch);
    Refusal::unless_zero(answer.number, answer.row)?;
    Ok(&list[..answer.words])
}

/// The condition at an index of a finished list, from the front. It reads the
/// whole list; [`Plan::read`] and its iterator read it once for all conditions.
/// A list from before P9 is read too, with depth 0.
///
/// ```
/// use leqwarti::{ConditionKind, Reason};
///
/// let list = [25, 16, 16, 4, 3, 3, 0, -1];
/// let main = leqwarti::condition_at(&list, 0)?;
/// assert_eq!((main.kind, main.row, main.depth), (ConditionKind::Main, 3, 0));
/// assert_eq!(main.formula.words(), [25, 16, 16]);
/// assert_eq!(leqwarti::condition_at(&list, 1).unwrap_err().reason, Reason::NoSuchLine);
/// assert_eq!(leqwarti::condition_at(&list[1..], 0).unwrap_err().reason, Reason::TornList);
/// # Ok::<(), leqwarti::Refusal>(())
/// ```
pub fn condition_at(list: &[i32], index: usize) -> Result<Condition<'_>, Refusal> {
    let line = entries::line_at(list, index_word(index));
    Refusal::unless_zero(line.number, line.row)?;
    Ok(Condition::of(list, &line))
}

/// An index as a word. No list has as many conditions as the largest word.
fn index_word(index: usize) -> i32 {
    i32::try_from(index).unwrap_or(i32::MAX)
}
