//! The check of a table: cases for each number of document 01 from 1 to 10.
//! The numbers and rows wanted are those that the document says, with the
//! range of variables from document 02, P2; what P2 moved says so.

mod common;

use common::{cases, edited, longest_path, nested, number, numbers, parts, Row, Script};
use common::{EVERY_KIND, EXAMPLE_A, FOUR_ROWS};
use leqwarti::entries::{check, Verdict};

const ACCEPTED: Verdict = Verdict { number: 0, row: 0 };

fn refused(number: usize, row: usize) -> Verdict {
    Verdict { number, row }
}

fn expect(name: &str, rows: &[Row], wanted: Verdict) {
    assert_eq!(check(&rows.concat()), wanted, "{name}");
}

/// A case to a line: a row, what is put there, the verdict, and why.
fn expect_edits(rows: &[Row], text: &str) {
    for case in cases(text) {
        let [edit, wanted, _why] = parts(case, "|");
        let [row, put] = parts(edit, ":");
        let put = numbers(put).try_into().expect("four words");
        expect(case, &edited(rows, number(row), put), verdict(wanted));
    }
}

fn verdict(text: &str) -> Verdict {
    if text == "accepted" {
        return ACCEPTED;
    }
    let [told, row] = parts(text, "at");
    refused(number(told), number(row))
}

/// Words that are all zeros: where their number passes, row 0 has the kind 0,
/// which is not listed.
#[test]
fn lengths() {
    for (words, wanted) in [
        (0, refused(1, 0)),
        (1, refused(1, 0)),
        (3, refused(1, 0)),
        (4, refused(2, 0)),
        (5, refused(1, 0)),
        (8_190, refused(1, 0)),
        (8_192, refused(2, 0)),
        (8_193, refused(1, 0)),
        (8_196, refused(1, 0)),
    ] {
        assert_eq!(check(&vec![0; words]), wanted, "{words} words");
    }
}

#[test]
fn kinds_that_are_not_listed() {
    expect_edits(
        &EXAMPLE_A,
        "
         0: 0 0 0 0           | 2 at 0   | below the first kind
         0: 11 0 0 0          | 2 at 0   | after 10
         0: 15 0 0 0          | 2 at 0   | before 16
         0: 26 0 0 0          | 2 at 0   | after 25
         0: 31 0 0 0          | 2 at 0   | before 32
         0: 39 0 0 0          | 2 at 0   | after 38
         0: 47 0 0 0          | 2 at 0   | before 48
         0: 49 0 0 0          | 2 at 0   | after the last
         0: -1 0 0 0          | 2 at 0   | negative
         0: -48 0 0 0         | 2 at 0   | negative, of a kind
         0: 2147483647 0 0 0  | 2 at 0   | the largest
         0: -2147483648 0 0 0 | 2 at 0   | the least
         0: 65537 0 0 0       | 2 at 0   | 1 and 65,536
        19: 49 2 15 18        | 2 at 19  | in the last row
        13: 11 99 -1 5        | 2 at 13  | with fields that are wrong too
        ",
    );
}

#[test]
fn variable_numbers_and_rows_of_marks() {
    expect_edits(
        &EXAMPLE_A,
        "
         1: 2 -1 0 0          | 3 at 1   | variable
         1: 2 255 0 0         | accepted | in range, and frozen: a precondition may read it
         1: 2 256 0 0         | accepted | variable; 3 before P2
         1: 2 1023 0 0        | accepted | the last variable
         1: 2 1024 0 0        | 3 at 1   | variable
         1: 2 2147483647 0 0  | 3 at 1   | variable
         1: 2 -2147483648 0 0 | 3 at 1   | variable
         1: 2 65536 0 0       | 3 at 1   | 0 and 65,536
        14: 33 -1 13 0        | 3 at 14  | assigned variable
        14: 33 256 13 0       | accepted | assigned variable; 3 before P2
        14: 33 1023 13 0      | accepted | the last one assigned
        14: 33 1024 13 0      | 3 at 14  | assigned variable
        14: 33 2147483647 13 0 | 3 at 14 | assigned variable
         1: 9 -1 0 0          | 3 at 1   | mark's row
         1: 9 20 0 0          | 3 at 1   | mark's row past the last
         1: 9 19 0 0          | 9 at 1   | mark's row the last: in the table, and no while
         1: 9 2 0 0           | 9 at 1   | mark's row 2 is no while
         1: 1 2147483647 0 0  | accepted | any constant
         1: 1 -2147483648 0 0 | accepted | any constant
        13: 4 11 13 1         | 3 at 13  | 3 before 4: an unused field, and a link to itself
        14: 33 1024 15 0      | 3 at 14  | 3 before 4: a variable, and a link upwards
        14: 33 256 15 0       | 4 at 14  | the link alone; 3 before P2
        ",
    );
}

/// The fields that a kind uses.
fn used(kind: i32) -> usize {
    match kind {
        16 | 17 | 32 => 0,
        1 | 2 | 8 | 9 | 22 | 38 => 1,
        10 | 35 | 36 | 48 => 3,
        _ => 2,
    }
}

/// Each field that its kind does not use, in a row of every kind.
#[test]
fn unused_fields() {
    for (row, was) in EVERY_KIND.into_iter().enumerate() {
        for field in used(was[0]) + 1..4 {
            for value in [1, -1] {
                let mut rows = EVERY_KIND;
                rows[row][field] = value;
                let name = format!("field {field} of row {row} is {value}");
                expect(&name, &rows, refused(3, row));
            }
        }
    }
}

#[test]
fn links_that_are_not_to_a_lower_row() {
    expect_edits(
        &EXAMPLE_A,
        "
         0: 8 0 0 0           | 4 at 0   | the first row has no lower one
        13: 4 11 13 0         | 4 at 13  | to itself
        13: 4 13 12 0         | 4 at 13  | to itself, by the first field
        13: 4 11 14 0         | 4 at 13  | upwards
        13: 4 -1 12 0         | 4 at 13  | negative
        13: 4 11 -1 0         | 4 at 13  | negative
        13: 4 11 2147483647 0 | 4 at 13  | past the table
        15: 36 5 10 15        | 4 at 15  | to itself, by the third field
        19: 48 19 15 18       | 4 at 19  | to itself
        19: 48 2 20 18        | 4 at 19  | past the table
        19: 48 2 15 -1        | 4 at 19  | negative
        13: 4 8 13 0          | 4 at 13  | 4 before 5: a formula, then a link to itself
        ",
    );
}

#[test]
fn parts_of_another_sort() {
    expect_edits(
        &EXAMPLE_A,
        "
        13: 4 10 12 0  | 5 at 13  | a note for an expression
        13: 4 11 8 0   | 5 at 13  | a formula for an expression
        18: 20 16 15 0 | 5 at 18  | a statement for an expression
        14: 33 0 10 0  | 5 at 14  | a note for an assigned expression
        14: 33 0 5 0   | 5 at 14  | a formula for an assigned expression
         8: 19 2 7 0   | 5 at 8   | a formula compared
         5: 22 4 0 0   | 5 at 5   | not of an expression
         5: 23 2 4 0   | 5 at 5   | and of an expression
        15: 36 4 10 14 | 5 at 15  | an expression for a guard
        15: 36 5 9 14  | 5 at 15  | an expression for a note
        15: 36 5 8 14  | 5 at 15  | a formula for a note
        15: 36 5 14 14 | 5 at 15  | a statement for a note
        15: 36 5 10 13 | 5 at 15  | an expression for a body
        15: 36 5 10 8  | 5 at 15  | a formula for a body
        15: 36 5 10 10 | 5 at 15  | a note for a body
        10: 37 7 9 0   | 5 at 10  | an expression for an invariant
        10: 37 8 5 0   | 5 at 10  | a formula for a variant
        14: 38 13 0 0  | 5 at 14  | an expression asserted
        14: 34 13 12 0 | 5 at 14  | a sequence of expressions
        14: 35 8 13 12 | 5 at 14  | an if of expressions
        19: 48 1 15 18 | 5 at 19  | an expression for a precondition
        19: 48 15 2 18 | 5 at 19  | a statement for a precondition
        19: 48 2 10 18 | 5 at 19  | a note for the statement
        19: 48 2 15 16 | 5 at 19  | an expression for a postcondition
        18: 20 12 15 0 | 5 at 18  | 5 before 6: a row that is linked already, then a statement
        ",
    );
    expect_edits(
        &EVERY_KIND,
        "
        19: 10 11 15 18 | 5 at 19  | an expression for the formula of a choose
        19: 10 12 12 18 | 5 at 19  | a formula for the first expression of a choose
        19: 10 12 15 12 | 5 at 19  | a formula for its second
        28: 25 22 27 0  | 5 at 28  | implies of an expression
        35: 8 33 0 0    | 5 at 35  | a formula negated
        50: 35 48 48 49 | 5 at 50  | a statement for the guard of an if
        50: 35 29 36 49 | 5 at 50  | a note for its then part
        50: 35 29 48 29 | 5 at 50  | a formula for its else part
        51: 34 24 36 0  | 5 at 51  | a note in a sequence
        57: 34 55 56 0  | 5 at 57  | an expression in a sequence
        ",
    );
    let script_in_a_sequence = [&FOUR_ROWS[..], &[[34, 3, 1, 0]]].concat();
    expect(
        "a script for a statement",
        &script_in_a_sequence,
        refused(5, 4),
    );
}

#[test]
fn rows_that_are_linked_already() {
    expect_edits(
        &EXAMPLE_A,
        "
        13: 4 11 11 0  | 6 at 13  | by two fields of one row
        19: 48 2 15 2  | 6 at 19  | by two fields of one row, the first and the third
        18: 20 16 12 0 | 6 at 18  | by rows 13 and 18
        19: 48 2 15 8  | 6 at 19  | by the note and the script
        19: 48 5 15 18 | 6 at 19  | by the loop and the script
        19: 48 2 14 18 | 6 at 19  | by the loop and the script
        10: 37 2 9 0   | 6 at 19  | row 2, by the note and the script: the higher row is returned
        ",
    );
}

#[test]
fn rows_that_nothing_links_to() {
    expect_edits(
        &EXAMPLE_A,
        "
        19: 16 0 0 0  | 7 at 19  | the last row is no script, before any unlinked row
        19: 38 18 0 0 | 7 at 19  | the last row is no script
        18: 16 0 0 0  | 7 at 16  | 16 and 17 are unlinked
         8: 16 0 0 0  | 7 at 6   | 6 and 7
        13: 2 0 0 0   | 7 at 11  | 11 and 12
         2: 16 0 0 0  | 7 at 0   | 0 and 1
        ",
    );
    expect("the least script", &FOUR_ROWS, ACCEPTED);
    expect("a formula alone", &FOUR_ROWS[..1], refused(7, 0));
    expect("no script", &FOUR_ROWS[..2], refused(7, 1));
    let second = [[16, 0, 0, 0], [32, 0, 0, 0], [16, 0, 0, 0], [48, 4, 5, 6]];
    let two_scripts = [FOUR_ROWS, second].concat();
    expect("a script in the middle, row 3", &two_scripts, refused(7, 3));
    let two_unlinked = [
        [16, 0, 0, 0],
        [16, 0, 0, 0],
        [32, 0, 0, 0],
        [16, 0, 0, 0],
        [17, 0, 0, 0],
        [48, 0, 2, 3],
    ];
    expect("rows 1 and 4", &two_unlinked, refused(7, 1));
}

#[test]
fn assignments_to_frozen_names() {
    expect_edits(
        &EXAMPLE_A,
        "
        14: 33 127 13 0  | accepted | ordinary
        14: 33 128 13 0  | 8 at 14  | frozen
        14: 33 255 13 0  | 8 at 14  | frozen
        14: 33 256 13 0  | accepted | ordinary; 3 before P2
        14: 33 1023 13 0 | accepted | ordinary
        14: 33 1024 13 0 | 3 at 14  | no variable
        ",
    );
}

/// In a guard or an assigned expression; annotations may read them.
#[test]
fn frozen_names_that_are_read() {
    expect_edits(
        &EXAMPLE_A,
        "
         4: 2 127 0 0  | accepted | ordinary, in the guard
         4: 2 128 0 0  | 9 at 4   | in the guard
         4: 2 255 0 0  | 9 at 4   | in the guard
         4: 2 256 0 0  | accepted | ordinary, in the guard; 3 before P2
         4: 2 1023 0 0 | accepted | ordinary, in the guard
        11: 2 127 0 0  | accepted | ordinary, in the assigned expression
        11: 2 128 0 0  | 9 at 11  | in the assigned expression
        11: 2 255 0 0  | 9 at 11  | in the assigned expression
        11: 2 256 0 0  | accepted | ordinary, in the assigned expression; 3 before P2
        11: 2 1023 0 0 | accepted | ordinary, in the assigned expression
         7: 2 128 0 0  | accepted | in the invariant
         9: 2 128 0 0  | accepted | in the variant
         1: 2 128 0 0  | accepted | in the precondition
        16: 2 255 0 0  | accepted | in the postcondition
        ",
    );
    expect_edits(
        &EVERY_KIND,
        "
         2: 2 128 0 0 | 9 at 2   | in the outer loop's guard
        37: 2 200 0 0 | 9 at 37  | in the assigned expression of the inner loop
        22: 2 128 0 0 | accepted | in an assertion
        34: 2 255 0 0 | accepted | in the inner loop's variant
        10: 2 128 0 0 | accepted | in a formula of a choose in a variant
        53: 2 128 0 0 | 9 at 53  | in an expression assigned after the loop
        ",
    );
    for row in [1, 7, 9, 16] {
        for variable in [127, 128, 255, 256, 1_023] {
            let rows = edited(&EXAMPLE_A, row, [2, variable, 0, 0]);
            let name = format!("{variable} in the annotation at row {row}");
            expect(&name, &rows, ACCEPTED);
        }
    }
    let in_a_guard = [
        [16, 0, 0, 0],
        [2, 128, 0, 0],
        [1, 0, 0, 0],
        [20, 1, 2, 0], // 3: the guard
        [32, 0, 0, 0],
        [32, 0, 0, 0],
        [35, 3, 4, 5], // 6: the if
        [16, 0, 0, 0],
        [48, 0, 6, 7],
    ];
    expect("in an if's guard", &in_a_guard, refused(9, 1));
    let in_an_assertion = [
        [16, 0, 0, 0],
        [2, 128, 0, 0],
        [1, 0, 0, 0],
        [20, 1, 2, 0],
        [38, 3, 0, 0], // 4: the assertion
        [16, 0, 0, 0],
        [48, 0, 4, 5],
    ];
    expect("in an assertion alone", &in_an_assertion, ACCEPTED);
}

#[test]
fn marks_where_they_may_not_stand() {
    expect_edits(
        &EXAMPLE_A,
        "
         9: 9 15 0 0 | 9 at 9   | in the loop's own variant
         7: 9 15 0 0 | 9 at 7   | in the loop's own invariant
         4: 9 15 0 0 | 9 at 4   | in the loop's own guard
        11: 9 15 0 0 | 9 at 11  | in an assigned expression of the body
         1: 9 15 0 0 | 9 at 1   | in the precondition
        16: 9 15 0 0 | 9 at 16  | in the postcondition
         9: 9 14 0 0 | 9 at 9   | of a row that is no while
        ",
    );
    expect_edits(
        &EVERY_KIND,
        "
        21: 9 52 0 0 | accepted | in an assertion of the body
        34: 9 52 0 0 | accepted | in the variant of an inner loop
        32: 9 52 0 0 | accepted | in the invariant of an inner loop
        34: 9 48 0 0 | 9 at 34  | in the inner loop's own variant
        31: 9 48 0 0 | 9 at 31  | in the inner loop's own invariant
        22: 9 48 0 0 | 9 at 22  | of the inner loop, in an assertion before it
        37: 9 52 0 0 | 9 at 37  | in an assigned expression
         2: 9 52 0 0 | 9 at 2   | in the loop's own guard
        10: 9 52 0 0 | 9 at 10  | in the loop's own variant
        43: 9 50 0 0 | 9 at 43  | of an if
        43: 9 61 0 0 | 9 at 43  | of the last row
        43: 9 62 0 0 | 3 at 43  | past the last row
        43: 9 -1 0 0 | 3 at 43  | negative
        53: 9 52 0 0 | 9 at 53  | in an expression assigned after the loop
        58: 9 52 0 0 | 9 at 58  | in the postcondition
        ",
    );
    let after_its_loop = [
        [16, 0, 0, 0],
        [16, 0, 0, 0],
        [16, 0, 0, 0],
        [1, 0, 0, 0],
        [37, 2, 3, 0],
        [32, 0, 0, 0],
        [36, 1, 4, 5], // 6: the loop
        [9, 6, 0, 0],
        [1, 0, 0, 0],
        [20, 7, 8, 0],
        [38, 9, 0, 0], // 10: the assertion
        [34, 6, 10, 0],
        [16, 0, 0, 0],
        [48, 0, 11, 12],
    ];
    expect(
        "in an assertion after its loop",
        &after_its_loop,
        refused(9, 7),
    );
}

/// Where several rows have a fault, and where several tests refuse.
#[test]
fn which_of_several_faults_decides() {
    // Row 53, after the loop, reads a frozen name.
    let reading = edited(&EVERY_KIND, 53, [2, 128, 0, 0]);
    expect_edits(
        &reading,
        "
        53: 2 128 0 0   | 9 at 53  | that alone
         2: 2 129 0 0   | 9 at 2   | a lower one
        58: 9 52 0 0    | 9 at 53  | a higher one
        56: 33 128 55 0 | 8 at 56  | 8 before 9
        42: 33 255 41 0 | 8 at 42  | 8 before 9
        60: 16 0 0 0    | 7 at 58  | 7 before 9
        ",
    );
    // Row 56 assigns to a frozen name.
    let assigning = edited(&EVERY_KIND, 56, [33, 128, 55, 0]);
    expect_edits(
        &assigning,
        "
        56: 33 128 55 0 | 8 at 56  | that alone
        42: 33 128 41 0 | 8 at 42  | a lower one
         2: 2 128 0 0   | 8 at 56  | 8 before 9, though its row is lower
        60: 16 0 0 0    | 7 at 58  | 7 before 8
        61: 16 0 0 0    | 7 at 61  | the last row is no script
        49: 99 0 0 0    | 2 at 49  | 2 before 8
        ",
    );
}

fn expect_nested(ifs: usize, whiles: usize, wanted: Verdict) {
    let name = format!("{ifs} ifs in {whiles} whiles");
    expect(&name, &nested(ifs, whiles), wanted);
}

#[test]
fn nesting() {
    expect_nested(0, 0, ACCEPTED);
    expect_nested(8, 0, ACCEPTED);
    expect_nested(9, 0, refused(10, 0));
    expect_nested(0, 8, ACCEPTED);
    expect_nested(0, 9, refused(10, 0));
    expect_nested(4, 4, ACCEPTED);
    expect_nested(5, 4, refused(10, 0));
    expect_nested(1, 8, refused(10, 0));
}

/// The deepest that a table has room for.
#[test]
fn deepest_tables() {
    let sequences = Script::skip().repeated(1_022, Script::then_skip).rows();
    expect("1,022 sequences in one another", &sequences, ACCEPTED);
    expect("the longest path", &longest_path([16, 0, 0, 0]), ACCEPTED);
    expect(
        "its lowest row of no kind",
        &longest_path([15, 0, 0, 0]),
        refused(2, 0),
    );
    let negations = (0..2_042).map(|below| [8, below, 0, 0]);
    let rest = [
        [33, 0, 2_042, 0],
        [16, 0, 0, 0],
        [16, 0, 0, 0],
        [48, 2_044, 2_043, 2_045],
    ];
    let assigned: Vec<Row> = [[2, 128, 0, 0]]
        .into_iter()
        .chain(negations)
        .chain(rest)
        .collect();
    expect(
        "2,042 times negate of a frozen name",
        &assigned,
        refused(9, 0),
    );
    expect_nested(681, 0, refused(10, 0));
    expect_nested(0, 408, refused(10, 0));
    expect_nested(8, 403, refused(10, 0));
}
