//! The list reader: the line at an index, words that are no list (20), and
//! indexes that a list does not have (21). What is wanted is from document 01,
//! with the range of variables from document 02, P2, and kind 5 from P5;
//! `listing_cases.txt` has cases that an independent reading of P2 answered. The
//! lists are from before P9, and are read as ever, with depth 0; a whole one is read
//! a second time with depths. `depth.rs` has more lists that tell them.

mod common;

use common::{cases, number, numbers, parts, sum_of_all_variables_list, with_depths};
use common::{without_depths, EXAMPLE_A_LIST, EXAMPLE_A_OLD_LIST};
use leqwarti::entries::{first_place, line_at, step, Line};

/// A line of depth 0 whose formula stands from start up to end.
fn line(kind: usize, row: usize, start: usize, end: usize) -> Line {
    Line {
        number: 0,
        kind,
        row,
        depth: 0,
        start,
        end,
    }
}

fn no_line(number: usize) -> Line {
    Line {
        number,
        ..Line::default()
    }
}

fn expect_line(name: &str, words: &[i32], index: i32, wanted: Line) {
    assert_eq!(line_at(words, index), wanted, "{name}, index {index}");
}

/// A case to a line: a list, an index, kind and row of the line there, where
/// its formula starts and ends, and why.
fn expect_lines(text: &str) {
    for case in cases(text) {
        let [words, index, kind, row, place, _why] = parts(case, "|");
        let [start, end] = parts(place, "to");
        let wanted = line(number(kind), number(row), number(start), number(end));
        let (words, index) = (numbers(words), number(index));
        expect_line(case, &words, index, wanted);

        let depths: Vec<i32> = (0..words[words.len() - 1])
            .map(|line| (3 + line) % 8)
            .collect();
        let deeper = Line {
            depth: (3 + index as usize) % 8,
            start: wanted.start + index as usize,
            end: wanted.end + index as usize,
            ..wanted
        };
        expect_line(case, &with_depths(&words, &depths), index, deeper);
    }
}

/// How many conditions a reader passes from the last one back.
fn passed(words: &[i32]) -> usize {
    let mut place = first_place(words);
    let mut count = 0;
    while step(words, &mut place).number == 0 {
        count += 1;
    }
    count
}

/// The words are no list: 20 at every index, also at those that no list has,
/// and a reader that stays where it is.
fn expect_torn(name: &str, words: &[i32]) {
    for index in [0, -1, 1_000_000] {
        expect_line(name, words, index, no_line(20));
    }
    let mut place = first_place(words);
    assert_eq!(place, 1, "{name}: the first place");
    assert_eq!(step(words, &mut place), no_line(20), "{name}: a step");
    assert_eq!(place, 1, "{name}: the place after it");
}

/// A case to a line: words, and why they are no list.
fn expect_all_torn(text: &str) {
    for case in cases(text) {
        let [words, _why] = parts(case, "|");
        expect_torn(case, &numbers(words));
    }
}

#[test]
fn example_a() {
    let list = numbers(EXAMPLE_A_LIST);
    assert_eq!((list.len(), first_place(&list)), (98, 97));
    assert_eq!(passed(&list), 4);
    expect_line("exit", &list, 0, line(1, 15, 0, 18));
    expect_line("floor", &list, 1, line(2, 15, 22, 39));
    expect_line("step", &list, 2, line(3, 15, 43, 78));
    expect_line("main", &list, 3, line(4, 19, 82, 93));

    let old = numbers(EXAMPLE_A_OLD_LIST);
    assert_eq!(old, without_depths(&list));
    assert_eq!((old.len(), first_place(&old)), (94, 93));
    assert_eq!(passed(&old), 4);
    expect_line("exit", &old, 0, line(1, 15, 0, 18));
    expect_line("floor", &old, 1, line(2, 15, 21, 38));
    expect_line("step", &old, 2, line(3, 15, 41, 76));
    expect_line("main", &old, 3, line(4, 19, 79, 90));
}

#[test]
fn small_lists() {
    expect_lines(
        "
        25 16 16 4 3 3 1         | 0 | 4 | 3 | 0 to 3 | the list of the trial rows
        17 2 0 1 1               | 0 | 2 | 0 | 0 to 1 | no main at its end, and no implication
        16 4 7 1 22 17 4 7 2 2   | 0 | 4 | 7 | 0 to 1 | the first of two lines
        16 4 7 1 22 17 4 7 2 2   | 1 | 4 | 7 | 4 to 6 | the second
        25 16 16 5 3 3 1         | 0 | 5 | 3 | 0 to 3 | a guard alone; 20 before P5
        16 5 2047 1 17 1 0 1 2   | 0 | 5 | 2047 | 0 to 1 | a guard before an exit
        16 5 2047 1 17 1 0 1 2   | 1 | 1 | 0 | 4 to 5 | the exit
        16 4 7 1 22 17 5 7 2 2   | 1 | 5 | 7 | 4 to 6 | a guard last
        ",
    );
    assert_eq!(passed(&[25, 16, 16, 4, 3, 3, 1]), 1);
    assert_eq!(passed(&[16, 4, 7, 1, 22, 17, 4, 7, 2, 2]), 2);
    assert_eq!(passed(&[16, 5, 7, 1, 22, 17, 5, 7, 2, 2]), 2);
}

#[test]
fn numbers_at_their_limits() {
    expect_lines(
        "
        20 1 -2147483648 1 2147483647 1 2047 5 1 | 0 | 1 | 2047 | 0 to 5 | any constant, row 2,047
        18 2 255 2 0 2 0 5 1                     | 0 | 2 | 0    | 0 to 5 | variables 255 and 0
        18 2 1023 2 256 2 0 5 1                  | 0 | 2 | 0    | 0 to 5 | variables 1,023 and 256; 20 before P2
        18 2 127 2 128 2 0 5 1                   | 0 | 2 | 0    | 0 to 5 | variables 127 and 128
        21 9 2047 9 0 3 1 5 1                    | 0 | 3 | 1    | 0 to 5 | marks 2,047 and 0
        19 10 16 6 1 1 1 0 8 7 2 1 2 2 5 3 1 5 1 5 1 5 4 0 22 1 | 0 | 4 | 0 | 0 to 22 | every kind of expression
        ",
    );
}

#[test]
fn indexes_that_the_list_does_not_have() {
    for list in [EXAMPLE_A_LIST, EXAMPLE_A_OLD_LIST].map(numbers) {
        for index in [4, i32::MAX, -1, i32::MIN, -4] {
            expect_line("example A", &list, index, no_line(21));
        }
    }
    for index in [1, -1] {
        expect_line("one line", &[16, 4, 0, 1, 1], index, no_line(21));
        expect_line("one line", &[16, 4, 0, 1, 0, -1], index, no_line(21));
    }
}

/// Whether the words are one whole formula: no list of theirs is torn.
fn is_formula(words: &[i32]) -> bool {
    let trailer = [4, 0, words.len() as i32, 1];
    line_at(&[words, &trailer].concat(), 0).number == 0
}

fn is_expression(words: &[i32]) -> bool {
    is_formula(&[&[20, 1, 0], words].concat())
}

/// Where formulas and expressions that start at a place end.
#[test]
fn ends() {
    let words = [18, 3, 1, 5, 2, 0, 9, 7, 22, 17, 1];
    let ends = |start: usize, is_one: fn(&[i32]) -> bool| -> Vec<usize> {
        let all = start..=words.len();
        all.filter(|&end| is_one(&words[start..end])).collect()
    };
    assert_eq!(ends(0, is_formula), [8]);
    assert_eq!(ends(1, is_expression), [6]);
    assert_eq!(ends(6, is_expression), [8]);
    assert_eq!(ends(8, is_formula), [10]);
    assert_eq!(ends(1, is_formula), [], "an expression is no formula");
    assert_eq!(ends(0, is_expression), [], "a formula is no expression");
    assert_eq!(ends(10, is_expression), [], "a constant has a number");
    assert_eq!(ends(11, is_expression), [], "there are no words");
}

#[test]
fn torn_by_the_count() {
    expect_torn("no words", &[]);
    expect_torn("no words, past others", &[16, 4, 0, 1, 1][5..]);
    expect_all_torn(
        "
        16 4 0 1                    | the count is missing
        16 4 0 1 0                  | 0
        16 4 0 1 -1                 | negative
        16 4 0 1 2                  | too large
        16 4 0 1 2147483647         | the largest
        16 4 0 1 16 4 0 1 1         | too small by 1
        16 4 0 1 17 4 0 1 16 4 0 1 2 | too small by 1, of three
        1                           | alone
        0                           | alone, and 0
        ",
    );
}

/// A kind of condition is 1 to 5.
#[test]
fn torn_by_the_kind() {
    expect_all_torn(
        "
        16 0 0 1 1  | 0
        16 6 0 1 1  | 6 (before P5 from 5 on)
        16 -1 0 1 1 | negative
        16 5 0 1 16 0 0 1 2 | 0 after a guard
        16 6 0 1 16 5 0 1 2 | 6 before a guard
        ",
    );
}

/// A row is 0 to 2,047.
#[test]
fn torn_by_the_row() {
    expect_all_torn(
        "
        16 4 -1 1 1          | negative
        16 4 2048 1 1        | past the last
        16 4 -2147483648 1 1 | the least
        ",
    );
}

#[test]
fn torn_by_the_length() {
    expect_all_torn(
        "
        16 4 0 -1 1             | negative
        16 4 0 0 1              | none
        22 16 4 0 1 1           | short
        16 4 0 1 16 4 0 2 2     | long, into the line before
        16 4 0 2 1              | past the front
        16 4 0 2147483647 1     | the largest
        16 4 0 -2147483648 1    | the least
        16 17 4 0 2 1           | of two formulas
        ",
    );
}

#[test]
fn torn_by_the_sort() {
    expect_all_torn(
        "
        1 0 4 0 2 1                          | a constant
        3 1 0 1 0 4 0 5 1                    | a sum
        32 4 0 1 1                           | a statement
        22 38 16 4 0 3 1                     | not of a statement
        37 16 1 0 4 0 4 1                    | a note
        48 16 32 16 4 0 4 1                  | a script
        0 4 0 1 1                            | a kind that is not listed
        11 4 0 1 1                           | a kind that is not listed
        22 -16 4 0 2 1                       | a negative kind
        18 16 1 0 4 0 4 1                    | a formula compared
        23 16 1 0 4 0 4 1                    | and of an expression
        20 10 1 0 1 0 1 0 1 0 4 0 10 1       | an expression for the formula of a choose
        ",
    );
}

/// Variables are 0 to 1,023, marks 0 to 2,047.
#[test]
fn torn_by_numbers_past_their_limits() {
    expect_all_torn(
        "
        18 2 1024 1 0 4 0 5 1       | a variable (before P2 from 256 on)
        18 1 0 2 1024 4 0 5 1       | a variable
        18 2 -1 1 0 4 0 5 1         | a variable
        18 2 2147483647 1 0 4 0 5 1 | a variable
        18 2 65536 1 0 4 0 5 1      | a variable, 0 and 65,536
        18 1 0 9 2048 4 0 5 1       | a mark
        18 1 0 9 -1 4 0 5 1         | a mark
        ",
    );
}

/// Every variable there is, one to a line, read at each index and walking back.
#[test]
fn every_variable() {
    let line_of = |variable| [18, 2, variable, 1, 0, 4, 7, 5];
    let list = [(0..1_024).flat_map(line_of).collect(), vec![1_024]].concat();
    for index in 0..1_024 {
        let start = 8 * index as usize;
        expect_line("a variable", &list, index, line(4, 7, start, start + 5));
    }
    assert_eq!(passed(&list), 1_024);
}

#[test]
fn a_list_with_all_ordinary_variables() {
    let list = sum_of_all_variables_list();
    for list in [without_depths(&list), list] {
        expect_line("the sum", &list, 0, line(4, 1_796, 0, 2_692));
        assert_eq!(passed(&list), 1);
    }
}

#[test]
fn torn_by_missing_words() {
    expect_all_torn(
        "
        22 4 0 1 1         | the part of not
        25 16 4 0 2 1      | the second part of implies
        18 1 0 1 4 0 4 1   | the last number
        18 1 0 4 0 3 1     | the second part of less
        16 0 1 1           | a word of the trailer
        4 0 0 1            | the formula
        16 1               | the trailer
        ",
    );
}

#[test]
fn torn_by_words_left_at_the_front() {
    expect_all_torn(
        "
        0 16 4 0 1 1       | of no kind
        16 16 4 0 1 1      | a formula
        1 15 18 16 4 0 1 1 | a trailer
        ",
    );
}

/// Example A with a word or two wrong: in the first line, in each of those
/// between, in the last.
#[test]
fn torn_by_one_line_of_several() {
    let list = numbers(EXAMPLE_A_OLD_LIST);
    for (name, wrong) in [
        ("the first formula", &[(0, 3)][..]),
        ("the first kind", &[(18, 0)]),
        ("the second formula", &[(22, 26)]),
        ("the second length", &[(40, 16)]),
        ("a mark in the third", &[(58, 2_048)]),
        ("the third row", &[(77, -15)]),
        ("a mark in the last", &[(88, 9), (89, -1)]),
        ("the last length", &[(92, 12)]),
    ] {
        let mut words = list.clone();
        for &(place, word) in wrong {
            words[place] = word;
        }
        expect_torn(name, &words);
    }
}

/// A list of one condition, main of row 0.
fn list_of(formula: Vec<i32>) -> Vec<i32> {
    let length = formula.len() as i32;
    [formula, vec![4, 0, length, 1]].concat()
}

/// 16,384 words, of which the formula has 16,380.
#[test]
fn deepest_lists() {
    for (name, formula) in [
        ("nots", [vec![22; 16_379], vec![16]].concat()),
        (
            "negations of a constant",
            [vec![18], vec![8; 16_375], vec![1, 0, 1, 0]].concat(),
        ),
        (
            "5,458 sums in first parts, then 5,460 constants",
            [vec![18, 8], vec![3; 5_458], [1, 3].repeat(5_460)].concat(),
        ),
        (
            "5,458 sums in second parts, each after a constant",
            [vec![18, 8], [3, 1, 1].repeat(5_458), vec![1; 4]].concat(),
        ),
    ] {
        expect_line(name, &list_of(formula), 0, line(4, 0, 0, 16_380));
    }
    for (name, formula) in [
        (
            "sums with no part that ends",
            [vec![18], vec![3; 16_379]].concat(),
        ),
        ("nots with nothing under the last", vec![22; 16_380]),
    ] {
        expect_torn(name, &list_of(formula));
    }
}

/// 4,094 times true as an exit of row 1, then three nots of true as a main of
/// row 2,047.
#[test]
fn the_most_conditions() {
    let exits = [16, 1, 1, 1].repeat(4_094);
    let list = [exits, vec![22, 22, 22, 16, 4, 2_047, 4, 4_095]].concat();
    assert_eq!(list.len(), 16_384);
    expect_line("the first", &list, 0, line(1, 1, 0, 1));
    expect_line("the last exit", &list, 4_093, line(1, 1, 16_372, 16_373));
    expect_line("main", &list, 4_094, line(4, 2_047, 16_376, 16_380));
    expect_line("past it", &list, 4_095, no_line(21));
    assert_eq!(passed(&list), 4_095);
}

/// Nots of true, well formed but for the number of words.
#[test]
fn lists_that_are_too_long() {
    for nots in [16_380, 16_381] {
        let list = list_of([vec![22; nots], vec![16]].concat());
        expect_torn(&format!("{} words", list.len()), &list);
    }
}

#[test]
fn the_recorded_cases() {
    let mut tried = 0;
    for case in cases(include_str!("listing_cases.txt")).skip(1) {
        let [words, index, wanted] = parts(case, "|");
        let [told, kind, row, start, end] = parts(wanted, " ");
        let wanted = Line {
            number: number(told),
            kind: number(kind),
            row: number(row),
            depth: 0,
            start: number(start),
            end: number(end),
        };
        expect_line(case, &numbers(words), number(index), wanted);
        tried += 1;
    }
    assert_eq!(tried, 40);
}
