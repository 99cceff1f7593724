//! Deep tables in which two rows link to one.

use super::rows::Rows;
use super::{Case, Input};

const MENDED: usize = 0;
const MARK_OUTSIDE: usize = 13;
const TOO_LONG: usize = 14;

pub fn cases() -> Vec<Case> {
    let case = |(name, number, words): (&str, usize, Vec<i32>)| Case {
        name: name.to_string(),
        input: Input::Shared { words, number },
    };
    let cases = [
        ("sums that double", TOO_LONG, doubled(Rows::zero, [3, 33])),
        ("ands that double", TOO_LONG, doubled(Rows::truth, [23, 38])),
        (
            "sequences that double",
            TOO_LONG,
            doubled(Rows::skip, [34, 34]),
        ),
        (
            "sums that double 9 times, under nots",
            MENDED,
            under_nots(9),
        ),
        (
            "loops in one another over one note",
            MENDED,
            loops(408, false),
        ),
        ("2,040 loops over one note", TOO_LONG, loops(2_040, false)),
        (
            "2,040 loops, a mark in their note",
            MARK_OUTSIDE,
            loops(2_040, true),
        ),
        ("nots that are not reached", MENDED, not_reached()),
    ];
    cases.map(case).into()
}

/// A row is twice a part of the next one, as often as rows allow, and that of a statement.
fn doubled(first: fn(&mut Rows) -> i32, [kind, statement]: [i32; 2]) -> Vec<i32> {
    let mut rows = Rows::new();
    let first = first(&mut rows);
    let deep = rows.deep(first, |rows, part| rows.add([kind, part, part, 0]));
    let statement = match statement {
        33 => rows.assign(0, deep),
        34 => deep,
        kind => rows.add([kind, deep, 0, 0]),
    };
    rows.script_of(statement)
}

/// Nots around the precondition until there are as many new rows as there may be.
fn under_nots(doublings: usize) -> Vec<i32> {
    let mut rows = Rows::new();
    let mut sum = rows.zero();
    for _ in 0..doublings {
        sum = rows.add([3, sum, sum, 0]);
    }
    let assign = rows.assign(0, sum);
    let truth = rows.truth();
    let others = (2 << doublings) - 1 + 1 + 1 + 1 + 1;
    let mut deep = truth;
    for _ in 0..2_048 - others {
        deep = rows.add([22, deep, 0, 0]);
    }
    rows.script(deep, assign, truth)
}

/// Loops in one another, of which the innermost asserts the mark of the outermost; with
/// that mark in the note, it stands outside.
fn loops(count: i32, in_note: bool) -> Vec<i32> {
    let mut rows = Rows::new();
    let (truth, zero) = (rows.truth(), rows.zero());
    let mark = rows.add([9, 5 + count, 0, 0]);
    let variant = if in_note { mark } else { zero };
    let note = rows.add([37, truth, variant, 0]);
    let formula = rows.add([20, mark, zero, 0]);
    let mut whole = rows.add([38, formula, 0, 0]);
    for _ in 0..count {
        whole = rows.add([36, truth, note, whole]);
    }
    rows.script(truth, whole, truth)
}

fn not_reached() -> Vec<i32> {
    let mut rows = Rows::new();
    let truth = rows.truth();
    rows.deep(truth, |rows, part| rows.add([22, part, 0, 0]));
    let skip = rows.skip();
    rows.script(truth, skip, truth)
}
