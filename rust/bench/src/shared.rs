//! The tables that are mended: two rows may link to one.

use fuzz::layouts::{relaid, Layout};
use fuzz::odd_tables::padded;
use fuzz::Prng;
use leqwarti::LARGEST_TABLE;

use crate::scripts::loops;

const MOST_ROWS: usize = LARGEST_TABLE / 4;

type Row = [i32; 4];

fn add(rows: &mut Vec<Row>, row: Row) -> i32 {
    rows.push(row);
    rows.len() as i32 - 1
}

/// v0 := 0 between 0 = 0 and 0 = 0, with one row for all zeros.
pub fn constant() -> Vec<i32> {
    [[1, 0, 0, 0], [20, 0, 0, 0], [33, 0, 0, 0], [48, 1, 2, 1]].concat()
}

/// Loops, with nots around the precondition for as many rows as there may be.
fn longest() -> Vec<i32> {
    let table = loops(120);
    padded(&table, MOST_ROWS - table.len() / 4)
}

/// The longest table in the order that is written: it comes back.
pub fn in_order() -> Vec<i32> {
    relaid(&longest(), Layout::LeftToRight, &mut Prng::new(1))
}

pub fn in_any_order() -> Vec<i32> {
    relaid(&longest(), Layout::Scattered, &mut Prng::new(1))
}

/// Some loops, as a block that stands so often one after the other, and as many nots as
/// make the longest table of it.
pub fn block_used_often(times: usize) -> Vec<i32> {
    let block = loops(12);
    let mut rows: Vec<Row> = block.as_chunks().0.to_vec();
    let [_, pre, statement, post] = rows.pop().expect("a script");
    let others = block.len() / 4;
    let mut whole = statement;
    for _ in 1..times {
        whole = add(&mut rows, [34, whole, statement, 0]);
    }
    rows.push([48, pre, whole, post]);
    // The precondition, the postcondition and the script have seven rows.
    let new_rows = times * (others - 7) + times - 1 + 7;
    padded(&rows.concat(), MOST_ROWS - new_rows)
}

/// A loop whose body asserts its mark.
fn marked_loop() -> (Vec<Row>, i32) {
    let mut rows = vec![[16, 0, 0, 0], [2, 0, 0, 0], [37, 0, 1, 0], [9, 6, 0, 0]];
    rows.extend([[18, 1, 3, 0], [38, 4, 0, 0], [36, 0, 2, 5]]);
    (rows, 6)
}

/// A loop with its mark, doubled so often.
pub fn doubled_loop(times: usize) -> Vec<i32> {
    let (mut rows, mut whole) = marked_loop();
    for _ in 0..times {
        whole = add(&mut rows, [34, whole, whole, 0]);
    }
    rows.push([48, 0, whole, 0]);
    rows.concat()
}

/// A sum of a row and itself, so often.
pub fn doubled_sum(times: usize) -> Vec<i32> {
    let mut rows = vec![[16, 0, 0, 0]];
    let mut sum = add(&mut rows, [2, 0, 0, 0]);
    for _ in 0..times {
        sum = add(&mut rows, [3, sum, sum, 0]);
    }
    let assign = add(&mut rows, [33, 0, sum, 0]);
    rows.push([48, 0, assign, 0]);
    rows.concat()
}

/// Loops in one another over one guard and one note. Each assertion of a mark stands in
/// the innermost body and in that of its loop: of the outermost loop first, then of the
/// next one inward, and so on.
fn loops_in_one_another(count: i32, marks: i32) -> Vec<Row> {
    let mut rows = vec![[16, 0, 0, 0], [2, 0, 0, 0], [37, 0, 1, 0]];
    let assertions: Vec<(usize, i32)> = (0..marks)
        .map(|_| {
            let mark = add(&mut rows, [9, 0, 0, 0]);
            let formula = add(&mut rows, [18, 1, mark, 0]);
            (mark as usize, add(&mut rows, [38, formula, 0, 0]))
        })
        .collect();
    let mut whole = add(&mut rows, [32, 0, 0, 0]);
    for &(_, assertion) in &assertions {
        whole = add(&mut rows, [34, assertion, whole, 0]);
    }
    for number in (0..count).rev() {
        let own = assertions.get(number as usize);
        if let Some((_, assertion)) = own {
            whole = add(&mut rows, [34, whole, *assertion, 0]);
        }
        whole = add(&mut rows, [36, 0, 2, whole]);
        if let Some((mark, _)) = own {
            rows[*mark][1] = whole;
        }
    }
    rows.push([48, 0, whole, 0]);
    rows
}

pub fn nested_loops(count: i32, marks: i32) -> Vec<i32> {
    loops_in_one_another(count, marks).concat()
}

/// The same with what the last assertion says as the postcondition too, where its mark is
/// outside.
pub fn mark_outside_loops(count: i32, marks: i32) -> Vec<i32> {
    let mut rows = loops_in_one_another(count, marks);
    let script = rows.len() - 1;
    rows[script][3] = 3 + 3 * (marks - 1) + 1;
    rows.concat()
}

/// The longest table with a mark in its first leaf, which names no loop.
pub fn mark_outside() -> Vec<i32> {
    let mut table = in_order();
    let is_leaf = |row: &[i32]| matches!(row[0], 1 | 2);
    let leaf = table.chunks(4).position(is_leaf).expect("a leaf");
    table[4 * leaf..4 * leaf + 2].copy_from_slice(&[9, 0]);
    table
}
