//! Every input of a few words or rows, out of telling ones.

use fuzz::small::{add_tree, Kinds, Trees};
use fuzz::tell;
use reference::{need, LONGEST_LIST};

use crate::bare::Bare;
use crate::beside::{
    check_table, count, generate_table, mend_table, read_line, shorten_list, take_shorter, walk,
    write_text, Numbers,
};

/// Calls with every run of so many of the values.
fn for_each_run(values: &[i32], length: usize, call: &mut dyn FnMut(&[i32])) {
    let mut places = vec![0; length];
    let mut run = vec![values[0]; length];
    loop {
        call(&run);
        let Some(turning) = places.iter().rposition(|place| *place + 1 < values.len()) else {
            return;
        };
        places[turning] += 1;
        places[turning + 1..].fill(0);
        for (word, place) in run.iter_mut().zip(&places).skip(turning) {
            *word = values[*place];
        }
    }
}

/// Words of lists: parts of formulas, of trailers, counts, and what is none of these.
const LIST_WORDS: [i32; 12] = [-1, 0, 1, 2, 3, 5, 6, 8, 10, 16, 20, 22];

/// The most words of a list here; with one more there are twelve times as many.
const SHORT: usize = 6;

#[test]
fn every_short_list() {
    let mut bare = Bare::new();
    let (mut read, mut calls) = (Numbers::new(), 0);
    for length in 0..=SHORT {
        for_each_run(&LIST_WORDS, length, &mut |list| {
            calls += 1;
            count(&mut read, read_line(&mut bare, list, 0));
            if calls % 7 == 0 {
                walk(&mut bare, list);
                write_text(&mut bare, list, 0, 100);
                shorten_list(&mut bare, list, 6);
                take_shorter(&mut bare, list, &[22, 16, 4, 0, 2, 1], 0);
            }
        });
    }
    tell(format!("{calls} lists: {read:?}"));
    assert!(read.keys().copied().eq([0, 20]));
}

/// Words of rows: kinds of every sort, numbers around 0, and what is none of these.
const ROW_WORDS: [i32; 9] = [-1, 0, 1, 2, 9, 16, 22, 32, 48];

/// All tables of one row, and of two whose second and third fields are unused.
#[test]
fn every_table_of_a_row_or_two() {
    let mut bare = Bare::new();
    let (mut checked, mut mended) = (Numbers::new(), Numbers::new());
    let mut call = |table: &[i32]| {
        count(&mut checked, check_table(&mut bare, table));
        count(&mut mended, mend_table(&mut bare, table, 8, 2));
    };
    for_each_run(&ROW_WORDS, 4, &mut call);
    for_each_run(&ROW_WORDS, 4, &mut |words| {
        call(&[words[0], words[1], 0, 0, words[2], words[3], 0, 0]);
    });
    tell(format!("tables of a row or two: {checked:?}, {mended:?}"));
    assert!(checked.keys().copied().eq([2, 3, 4, 5, 7]));
    assert!(mended.keys().copied().eq([2, 3, 4, 5, 7]));
}

const KINDS: Kinds = Kinds {
    leaves: &[[2, 0], [2, 1]],
    truths: &[16],
    arithmetic: &[3, 6, 7],
    comparisons: &[20],
    connectives: &[23],
};

fn add(rows: &mut Vec<[i32; 4]>, row: [i32; 4]) -> i32 {
    rows.push(row);
    rows.len() as i32 - 1
}

/// v0 := v1 div v0, then the statement, and then 0 = v0.
fn after_a_division(mut rows: Vec<[i32; 4]>, statement: i32) -> Vec<i32> {
    let value = add_tree(&mut rows, &[6, 2, 1, 2, 0]).0;
    let assign = add(&mut rows, [33, 0, value, 0]);
    let both = add(&mut rows, [34, assign, statement, 0]);
    let pre = add(&mut rows, [16, 0, 0, 0]);
    let post = add_tree(&mut rows, &[20, 2, 1, 2, 0]).0;
    add(&mut rows, [48, pre, both, post]);
    rows.concat()
}

fn assigned(expression: &[i32]) -> Vec<i32> {
    let mut rows = Vec::new();
    let value = add_tree(&mut rows, expression).0;
    let assign = add(&mut rows, [33, 1, value, 0]);
    after_a_division(rows, assign)
}

/// A branch and a loop with the guard, in one another.
fn guarding(formula: &[i32]) -> Vec<i32> {
    let mut rows = Vec::new();
    let skip = add(&mut rows, [32, 0, 0, 0]);
    let value = add_tree(&mut rows, &[7, 2, 1, 2, 0]).0;
    let assign = add(&mut rows, [33, 1, value, 0]);
    let guard = add_tree(&mut rows, formula).0;
    let branch = add(&mut rows, [35, guard, assign, skip]);
    let guard = add_tree(&mut rows, formula).0;
    let invariant = add_tree(&mut rows, &[20, 2, 0, 2, 1]).0;
    let variant = add_tree(&mut rows, &[2, 1]).0;
    let note = add(&mut rows, [37, invariant, variant, 0]);
    let the_loop = add(&mut rows, [36, guard, note, branch]);
    after_a_division(rows, the_loop)
}

/// The most nodes of an expression or formula here.
const NODES: usize = 8;

#[test]
fn every_small_expression_and_guard_that_divides() {
    let trees = Trees::up_to(NODES, KINDS);
    let assigned = trees
        .expressions
        .iter()
        .flatten()
        .map(|tree| assigned(tree));
    let guarding = trees.formulas.iter().flatten().map(|tree| guarding(tree));
    let mut bare = Bare::new();
    let (mut numbers, mut tables) = (Numbers::new(), 0);
    for table in assigned.chain(guarding) {
        let need = need(&table).expect("a script");
        let words = need.words.expect("a short list");
        assert!(words < LONGEST_LIST);
        let lengths = [
            (words - 1, need.scratch),
            (words, need.scratch),
            (words, need.scratch - 1),
        ];
        for (room, scratch) in lengths {
            let number = generate_table(&mut bare, &table, room, scratch);
            count(&mut numbers, number);
        }
        tables += 1;
    }
    tell(format!("{tables} small scripts: {numbers:?}"));
    assert!(tables > 3_000 && numbers.keys().copied().eq([0, 11, 12]));
}
