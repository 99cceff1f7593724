//! The generator: room and scratch at their edges, the largest tables and
//! lists, and scripts of each shape with their whole lists. The answers wanted
//! are worked out from document 01's rules, with the range of variables from
//! document 02, P2, the need of scratch from P8 and the depths from P9. Document
//! 01's trial rows, which the program `trials` runs, are among them as P8 and P9
//! have moved them: here the buffers are looked at too. `generator_cases.txt` has
//! cases that an independent reading of P2 answered; in seven of them code divides,
//! and their answers are those since P5; two had 12 and, without any scratch, have
//! 11 since P8. Their lists are from before P9.

mod common;

use common::{answer, cases, edited, expect, expect_list, expect_recorded_before_p9, longest_path};
use common::{nested, number, parts, planned, refused, rows};
use common::{sum_of_all_variables, sum_of_all_variables_list};
use common::{Row, Script, EVERY_KIND, EXAMPLE_A, EXAMPLE_A_LIST, FOUR_ROWS};

/// A case to a line: room, scratch, and the answer.
fn expect_answers(name: &str, rows: &[Row], text: &str) {
    for case in cases(text) {
        let [buffers, wanted] = parts(case, "|");
        let [room, scratch] = parts(buffers, ",");
        let name = format!("{name}: {case}");
        expect(
            &name,
            &rows.concat(),
            number(room),
            number(scratch),
            answer(wanted),
        );
    }
}

/// Words that are all zeros: where their number passes, row 0 has a kind that
/// is not listed.
#[test]
fn lengths() {
    for (words, number) in [(0, 1), (3, 1), (4, 2), (8_192, 2), (8_196, 1)] {
        let name = format!("{words} words");
        expect(&name, &vec![0; words], 512, 5_120, refused(number, 0));
    }
}

/// A row of example A, what is put there, the answer, and why.
#[test]
fn refusals_by_number() {
    for case in cases(
        "
        14: 33 128 13 0  | refused 8 14 | an assignment to a frozen name
        14: 33 255 13 0  | refused 8 14 | an assignment to a frozen name
        14: 33 1024 13 0 | refused 3 14 | no variable has that number (before P2 it was 256)
        14: 33 -1 13 0   | refused 3 14 | no variable has that number
         9: 9 15 0 0     | refused 9 9  | a mark in the variant of its own loop
        13: 4 11 11 0    | refused 6 13 | a part twice
        13: 4 11 13 0    | refused 4 13 | a link to itself
         0: 11 0 0 0     | refused 2 0  | a kind that is not listed
        13: 4 11 8 0     | refused 5 13 | a formula for an expression
        14: 32 0 0 0     | refused 7 13 | nothing links to row 13
        19: 16 0 0 0     | refused 7 19 | the last row is no script
        11: 2 128 0 0    | refused 9 11 | an assigned expression that reads a frozen name
        11: 2 255 0 0    | refused 9 11 | an assigned expression that reads a frozen name
        ",
    ) {
        let [edit, wanted, _why] = parts(case, "|");
        let [row, put] = parts(edit, ":");
        let table = edited(&EXAMPLE_A, number(row), rows(put)[0]).concat();
        expect(case, &table, 512, 5_120, answer(wanted));
    }
}

/// Each if adds 7 words to W: and, implies, true, implies, not, true and the
/// else part's Q. Main of eight: 1 + 1 + 1 + 8 * 7, its trailer and the count:
/// 64.
///
/// Eight loops, each with its trailers: floor 9 + 4; exit 5 + 4 and its Q,
/// which is 1 word for the outermost and 7 for the others; step 10 + 4 and W of
/// its body, which is 7 words for the innermost and 1 for the others. With main
/// 3 + 4 and the count: 8 * 13 + 8 * 9 + 1 + 7 * 7 + 8 * 14 + 7 + 7 * 1 + 7 + 1
/// = 360 words, 25 conditions.
#[test]
fn nesting() {
    expect_answers("8 ifs", &nested(8, 0), "512, 5120 | planned 1 64");
    expect_answers("9 ifs", &nested(9, 0), "512, 5632 | refused 10 0");
    expect_answers("8 whiles", &nested(0, 8), "512, 5120 | planned 25 360");
    expect_answers("9 whiles", &nested(0, 9), "512, 5632 | refused 10 0");
}

/// 2,048 rows: a precondition of 2,045 words, skip, true. Main has 1 + 2045 + 1
/// words; with its trailer and the count 2,052.
#[test]
fn the_largest_table() {
    expect_answers(
        "2,048 rows",
        &longest_path([16, 0, 0, 0]),
        "
        2052, 4096 | planned 1 2052
        2052, 4095 | refused 11 0
        2051, 4096 | refused 12 0
        2051, 4095 | refused 11 0
        ",
    );
}

/// Scratch must hold two words a row, 8 and 40 and 88 and 56, and the list must
/// not be longer than room.
#[test]
fn edges_of_room_and_scratch() {
    expect_answers(
        "4 rows",
        &FOUR_ROWS,
        "
        7, 7    | refused 11 0
        7, 8    | refused 12 0
        8, 7    | refused 11 0
        8, 8    | planned 1 8
        9, 7    | refused 11 0
        9, 8    | planned 1 8
        8, 9    | planned 1 8
        8, 5120 | planned 1 8
        ",
    );
    expect_answers(
        "20 rows",
        &EXAMPLE_A,
        "
        97, 39    | refused 11 0
        97, 40    | refused 12 0
        97, 5120  | refused 12 0
        98, 39    | refused 11 0
        98, 40    | planned 4 98
        99, 39    | refused 11 0
        99, 40    | planned 4 98
        98, 41    | planned 4 98
        512, 39   | refused 11 0
        512, 5120 | planned 4 98
        ",
    );
    expect_answers(
        "44 rows, 8 whiles",
        &nested(0, 8),
        "
        359, 87 | refused 11 0
        359, 88 | refused 12 0
        360, 87 | refused 11 0
        360, 88 | planned 25 360
        ",
    );
    expect_answers(
        "28 rows, 8 ifs",
        &nested(8, 0),
        "
        63, 55 | refused 11 0
        63, 56 | refused 12 0
        64, 55 | refused 11 0
        64, 56 | planned 1 64
        ",
    );
}

/// What document 01 asked for before P8, nesting + 2 lists, is too much, and with
/// a small room too little. The comments have the answers from before.
#[test]
fn what_was_enough_before_p8() {
    expect_answers("4 rows", &FOUR_ROWS, "8, 15 | planned 1 8"); // 11
    expect_answers("20 rows", &EXAMPLE_A, "98, 293 | planned 4 98"); // 11
    expect_answers("20 rows", &EXAMPLE_A, "97, 290 | refused 12 0"); // 11
    expect_answers("20 rows", &EXAMPLE_A, "13, 39 | refused 11 0"); // 12
    expect_answers("20 rows", &EXAMPLE_A, "512, 40 | planned 4 98"); // 11

    // Ten assignments to what nothing reads: main is true implies true, in 8 words.
    let assignment = |row: i32| [[1, 0, 0, 0], [33, 0, row, 0]];
    let mut rows: Vec<Row> = vec![[16, 0, 0, 0], [32, 0, 0, 0]];
    for _ in 0..10 {
        let next = rows.len() as i32;
        rows.extend(assignment(next));
        rows.push([34, next - 1, next + 1, 0]);
    }
    let last = rows.len() as i32;
    rows.extend([[16, 0, 0, 0], [48, 0, last - 1, last]]);
    expect_answers(
        "34 rows",
        &rows,
        "
        8, 16 | refused 11 0
        8, 67 | refused 11 0
        8, 68 | planned 1 8
        7, 14 | refused 11 0
        7, 67 | refused 11 0
        7, 68 | refused 12 0
        ",
    );
}

/// No list fits, and scratch is tested first all the same.
#[test]
fn no_room() {
    expect_answers(
        "4 rows",
        &FOUR_ROWS,
        "
        0, 0 | refused 11 0
        0, 7 | refused 11 0
        0, 8 | refused 12 0
        0, 9 | refused 12 0
        1, 0 | refused 11 0
        ",
    );
    expect_answers(
        "20 rows",
        &EXAMPLE_A,
        "
        0, 0  | refused 11 0
        0, 39 | refused 11 0
        0, 40 | refused 12 0
        ",
    );
    expect_answers(
        "44 rows",
        &nested(0, 8),
        "
        0, 0  | refused 11 0
        0, 87 | refused 11 0
        0, 88 | refused 12 0
        ",
    );
}

/// Past 16,384 words of a buffer, room stays 16,384; the need of scratch is the
/// same for all.
#[test]
fn long_buffers() {
    expect_answers(
        "4 rows",
        &FOUR_ROWS,
        "
        16383, 7     | refused 11 0
        16383, 8     | planned 1 8
        16384, 7     | refused 11 0
        16384, 8     | planned 1 8
        16385, 7     | refused 11 0
        16385, 8     | planned 1 8
        20000, 7     | refused 11 0
        20000, 8     | planned 1 8
        20000, 32768 | planned 1 8
        ",
    );
    expect_answers(
        "20 rows",
        &EXAMPLE_A,
        "
        20000, 39    | refused 11 0
        20000, 40    | planned 4 98
        20000, 49152 | planned 4 98
        ",
    );
    expect_answers(
        "44 rows",
        &nested(0, 8),
        "
        20000, 87     | refused 11 0
        20000, 88     | planned 25 360
        20000, 163840 | planned 25 360
        ",
    );
}

/// The longest list that fits. An if with skip in both parts makes 6 + 2 * q
/// words of q: eight of them make 256 * (q + 6) - 6, which is 16,122 for q = 57.
/// With implies, a precondition of 256 words, the trailer and the count: 16,122 + 1
/// + 256 + 4 + 1 = 16,384. A longer precondition is one too many, in a longer
/// buffer too. Forty ifs would make a list of more than 2 to the 42nd words.
#[test]
fn the_longest_list() {
    let ifs = |start: Script, count: usize| start.in_if().repeated(count - 1, Script::then_if);
    expect_answers(
        "eight ifs between conditions of 256 and 57 words",
        &ifs(Script::skip_after(255), 8).before(56),
        "
        16384, 706   | planned 1 16384
        20000, 706   | planned 1 16384
        20000, 49152 | planned 1 16384
        16383, 706   | refused 12 0
        16384, 705   | refused 11 0
        ",
    );
    expect_answers(
        "the same with a precondition of 257 words",
        &ifs(Script::skip_after(256), 8).before(56),
        "
        16384, 708   | refused 12 0
        20000, 708   | refused 12 0
        20000, 707   | refused 11 0
        20000, 49152 | refused 12 0
        ",
    );
    expect_answers(
        "forty ifs",
        &ifs(Script::skip(), 40).rows(),
        "
        16384, 404   | refused 12 0
        20000, 404   | refused 12 0
        20000, 403   | refused 11 0
        ",
    );
}

/// The table's own refusals come before 11 and 12.
#[test]
fn the_order_of_refusals() {
    let nine = nested(0, 9);
    expect_answers("no scratch", &nine, "512, 0 | refused 10 0");
    expect_answers("no room", &nine, "0, 0 | refused 10 0");
    expect_answers("long buffers", &nine, "20000, 170000 | refused 10 0");
    expect_answers("no words, no room", &[], "0, 0 | refused 1 0");
    expect_answers("no words, long buffers", &[], "20000, 170000 | refused 1 0");
    let three_words = &nine[0][..3];
    expect("three words", three_words, 512, 0, refused(1, 0));
    let mut more = nine;
    more.resize(256, [0; 4]);
    expect_answers(
        "49 rows, then rows of no kind",
        &more,
        "0, 0 | refused 2 49",
    );
}

#[test]
fn the_lists_of_the_trial_rows() {
    expect_list("example A", &EXAMPLE_A, EXAMPLE_A_LIST);
    expect_list("four rows", &FOUR_ROWS, "25 16 16 4 3 3 0 -1");
}

/// Example A whose body assigns to a variable that P2 made ordinary; 3 before
/// P2. x stays as it is in the step, and nothing of the target is in the list.
#[test]
fn targets_from_256_to_1023() {
    for target in [256, 257, 1_000, 1_023] {
        expect_list(
            &format!("target {target}"),
            &edited(&EXAMPLE_A, 14, [33, target, 13, 0]),
            "
            25 23 19 1 0 2 0 22 18 1 0 2 0 20 2 0 1 0 1 15 18 0,
            25 23 19 1 0 2 0 18 1 0 2 0 19 1 0 2 0 2 15 17 0,
            25 23 23 19 1 0 2 0 18 1 0 2 0 20 2 0 9 15 23 19 1 0 2 0 18 2 0 9 15 3 15 29 0,
            25 19 1 0 2 0 19 1 0 2 0 4 19 11 0,
            -4
            ",
        );
    }
}

/// Example A with another variable for x everywhere.
#[test]
fn variables_from_256_to_1023() {
    for variable in [127, 256, 1_023] {
        let renumbered = |row: Row| match row {
            [2, 0, ..] => [2, variable, 0, 0],
            [33, 0, assigned, _] => [33, variable, assigned, 0],
            other => other,
        };
        let list = EXAMPLE_A_LIST.replace(" 2 0", &format!(" 2 {variable}"));
        let rows = EXAMPLE_A.map(renumbered);
        expect_list(&format!("v{variable}"), &rows, &list);
    }
}

#[test]
fn all_ordinary_variables_in_one_expression() {
    let (table, list) = (sum_of_all_variables().concat(), sum_of_all_variables_list());
    assert_eq!((table.len() / 4, list.len()), (1_797, 2_697));
    for room in [2_697, 4_000] {
        let written = expect("the sum", &table, room, 3_594, planned(1, 2_697));
        assert_eq!(written, list);
    }
    expect("no room", &table, 2_696, 3_594, refused(12, 0));
}

/// v257 := v256 + 1; v258 := v257 + 1; .. before v656 = v0: all 400 pass into
/// one another, and v256 + 1 + .. + 1 is left. Before P8 a scratch of 2,422 was
/// enough.
#[test]
fn assignments_to_400_variables() {
    let mut rows: Vec<Row> = vec![[16, 0, 0, 0]];
    let mut statement = None;
    for variable in 256..656 {
        let next = rows.len() as i32;
        rows.extend([[2, variable, 0, 0], [1, 1, 0, 0], [3, next, next + 1, 0]]);
        rows.push([33, variable + 1, next + 2, 0]);
        if let Some(before) = statement {
            rows.push([34, before, next + 3, 0]);
        }
        statement = Some(rows.len() as i32 - 1);
    }
    let next = rows.len() as i32;
    rows.extend([[2, 656, 0, 0], [2, 0, 0, 0], [20, next, next + 1, 0]]);
    rows.push([48, 0, next - 1, next + 2]);

    let sum = [vec![3; 400], vec![2, 256], [1, 1].repeat(400)].concat();
    let trailer = vec![4, next + 3, 1_207, 0, -1];
    let list = [vec![25, 16, 20], sum, vec![2, 0], trailer].concat();
    assert_eq!((next + 4, list.len()), (2_004, 1_212));
    let written = expect("400", &rows.concat(), 1_212, 4_008, planned(1, 1_212));
    assert_eq!(written, list);
    expect("400", &rows.concat(), 1_212, 2_422, refused(11, 0));
}

/// Loops in branches, in sequence and in loops, with empty bodies.
#[test]
fn loops() {
    // if true then while true do skip (true, 0) else while false do skip (true, 1): then's
    // conditions first
    expect_list(
        "in branches",
        &rows(
            "
            16 0 0 0, 16 0 0 0, 16 0 0 0, 16 0 0 0, 1 0 0 0, 37 3 4 0, 32 0 0 0, 36 2 5 6,
            17 0 0 0, 16 0 0 0, 1 1 0 0, 37 9 10 0, 32 0 0 0, 36 8 11 12, 35 1 7 13, 16 0 0 0,
            48 0 14 15
            ",
        ),
        "
        25 23 16 22 16 16 1 7 6 0,
        25 23 16 16 19 1 0 1 0 2 7 9 0,
        25 23 23 16 16 20 1 0 9 7 23 16 18 1 0 9 7 3 7 17 0,
        25 23 16 22 17 16 1 13 6 0,
        25 23 16 17 19 1 0 1 1 2 13 9 0,
        25 23 23 16 17 20 1 1 9 13 23 16 18 1 1 9 13 3 13 17 0,
        25 16 23 25 16 16 25 22 16 16 4 16 10 0,
        -7
        ",
    );
    // while false (true, 0) do skip, then while false (true, 1) do assert true: the second one's
    // conditions first
    expect_list(
        "in sequence",
        &rows(
            "
            16 0 0 0, 17 0 0 0, 16 0 0 0, 1 0 0 0, 37 2 3 0, 32 0 0 0, 36 1 4 5, 17 0 0 0,
            16 0 0 0, 1 1 0 0, 37 8 9 0, 16 0 0 0, 38 11 0 0, 36 7 10 12, 34 6 13 0, 16 0 0 0,
            48 0 14 15
            ",
        ),
        "
        25 23 16 22 17 16 1 13 6 0,
        25 23 16 17 19 1 0 1 1 2 13 9 0,
        25 23 23 16 17 20 1 1 9 13 23 16 23 16 18 1 1 9 13 3 13 19 0,
        25 23 16 22 17 16 1 6 6 0,
        25 23 16 17 19 1 0 1 0 2 6 9 0,
        25 23 23 16 17 20 1 0 9 6 23 16 18 1 0 9 6 3 6 17 0,
        25 16 16 4 16 3 0,
        -7
        ",
    );
    // the outer invariant reads a frozen name; the inner invariant and variant read the outer mark;
    // the inner exit's Q is I and V < m
    expect_list(
        "in a loop",
        &rows(
            "
            16 0 0 0, 1 0 0 0, 2 0 0 0, 18 1 2 0, 2 0 0 0, 2 128 0 0, 19 4 5 0, 2 0 0 0, 37 6 7 0,
            17 0 0 0, 2 0 0 0, 9 17 0 0, 20 10 11 0, 9 17 0 0, 37 12 13 0, 32 0 0 0, 36 9 14 15,
            36 3 8 16, 17 0 0 0, 48 0 17 18
            ",
        ),
        "
        25 23 19 2 0 2 128 22 18 1 0 2 0 17 1 17 14 0,
        25 23 19 2 0 2 128 18 1 0 2 0 19 1 0 2 0 2 17 17 0,
        25 23 20 2 0 9 17 22 17 23 19 2 0 2 128 18 2 0 9 17 1 16 20 1,
        25 23 20 2 0 9 17 17 19 1 0 9 17 2 16 13 1,
        25 23 23 20 2 0 9 17 17 20 9 17 9 16 23 20 2 0 9 17 18 9 17 9 16 3 16 25 1,
        25 23 23 19 2 0 2 128 18 1 0 2 0 20 2 0 9 17 20 2 0 9 17 3 17 23 0,
        25 16 19 2 0 2 128 4 19 7 0,
        -7
        ",
    );
}

/// Three statements joined to the left and to the right: W, the order of the
/// conditions and so the list are the same.
#[test]
fn sequences() {
    // (x := x + 1; x := x * 2); assert x unequal 0, before x < 9: x becomes (x + 1) * 2 in both
    expect_list(
        "to the left",
        &rows(
            "
            16 0 0 0, 2 0 0 0, 1 1 0 0, 3 1 2 0, 33 0 3 0, 2 0 0 0, 1 2 0 0, 5 5 6 0, 33 0 7 0,
            2 0 0 0, 1 0 0 0, 21 9 10 0, 38 11 0 0, 34 4 8 0, 34 13 12 0, 2 0 0 0, 1 9 0 0,
            18 15 16 0, 48 0 14 17
            ",
        ),
        "
        25 16 23 21 5 3 2 0 1 1 1 2 1 0 18 5 3 2 0 1 1 1 2 1 9 4 18 25 0,
        -1
        ",
    );
    // x := x + 1; (x := x * 2; assert x unequal 0)
    expect_list(
        "to the right",
        &rows(
            "
            16 0 0 0, 2 0 0 0, 1 1 0 0, 3 1 2 0, 33 0 3 0, 2 0 0 0, 1 2 0 0, 5 5 6 0, 33 0 7 0,
            2 0 0 0, 1 0 0 0, 21 9 10 0, 38 11 0 0, 34 8 12 0, 34 4 13 0, 2 0 0 0, 1 9 0 0,
            18 15 16 0, 48 0 14 17
            ",
        ),
        "
        25 16 23 21 5 3 2 0 1 1 1 2 1 0 18 5 3 2 0 1 1 1 2 1 9 4 18 25 0,
        -1
        ",
    );
    // three loops at rows 6, 12 and 18; Q of each exit is the invariant of the next: true, false,
    // true
    expect_list(
        "loops to the left",
        &rows(
            "
            16 0 0 0, 16 0 0 0, 16 0 0 0, 1 1 0 0, 37 2 3 0, 32 0 0 0, 36 1 4 5, 16 0 0 0,
            17 0 0 0, 1 2 0 0, 37 8 9 0, 32 0 0 0, 36 7 10 11, 17 0 0 0, 16 0 0 0, 1 3 0 0,
            37 14 15 0, 32 0 0 0, 36 13 16 17, 34 6 12 0, 34 19 18 0, 17 0 0 0, 48 0 20 21
            ",
        ),
        "
        25 23 16 22 17 17 1 18 6 0,
        25 23 16 17 19 1 0 1 3 2 18 9 0,
        25 23 23 16 17 20 1 3 9 18 23 16 18 1 3 9 18 3 18 17 0,
        25 23 17 22 16 16 1 12 6 0,
        25 23 17 16 19 1 0 1 2 2 12 9 0,
        25 23 23 17 16 20 1 2 9 12 23 17 18 1 2 9 12 3 12 17 0,
        25 23 16 22 16 17 1 6 6 0,
        25 23 16 16 19 1 0 1 1 2 6 9 0,
        25 23 23 16 16 20 1 1 9 6 23 16 18 1 1 9 6 3 6 17 0,
        25 16 16 4 22 3 0,
        -10
        ",
    );
    // the same, joined the other way
    expect_list(
        "loops to the right",
        &rows(
            "
            16 0 0 0, 16 0 0 0, 16 0 0 0, 1 1 0 0, 37 2 3 0, 32 0 0 0, 36 1 4 5, 16 0 0 0,
            17 0 0 0, 1 2 0 0, 37 8 9 0, 32 0 0 0, 36 7 10 11, 17 0 0 0, 16 0 0 0, 1 3 0 0,
            37 14 15 0, 32 0 0 0, 36 13 16 17, 34 12 18 0, 34 6 19 0, 17 0 0 0, 48 0 20 21
            ",
        ),
        "
        25 23 16 22 17 17 1 18 6 0,
        25 23 16 17 19 1 0 1 3 2 18 9 0,
        25 23 23 16 17 20 1 3 9 18 23 16 18 1 3 9 18 3 18 17 0,
        25 23 17 22 16 16 1 12 6 0,
        25 23 17 16 19 1 0 1 2 2 12 9 0,
        25 23 23 17 16 20 1 2 9 12 23 17 18 1 2 9 12 3 12 17 0,
        25 23 16 22 16 17 1 6 6 0,
        25 23 16 16 19 1 0 1 1 2 6 9 0,
        25 23 23 16 16 20 1 1 9 6 23 16 18 1 1 9 6 3 6 17 0,
        25 16 16 4 22 3 0,
        -10
        ",
    );
}

/// Substitution all at once, in branches and under choose; a row of every kind.
#[test]
fn expressions() {
    // if x < 0 then x := -x else skip, before 0 at most x
    expect_list(
        "assigned in a branch",
        &rows(
            "
            16 0 0 0, 2 0 0 0, 1 0 0 0, 18 1 2 0, 2 0 0 0, 8 4 0 0, 33 0 5 0, 32 0 0 0, 35 3 6 7,
            1 0 0 0, 2 0 0 0, 19 9 10 0, 48 0 8 11
            ",
        ),
        "
        25 16 23 25 18 2 0 1 0 19 1 0 8 2 0 25 22 18 2 0 1 0 19 1 0 2 0 4 12 27 0,
        -1
        ",
    );
    // x := x + 1; y := x, before choose(x < 5, x, y) = x: each x becomes x + 1 once, and y too
    expect_list(
        "choose",
        &rows(
            "
            16 0 0 0, 2 0 0 0, 1 1 0 0, 3 1 2 0, 33 0 3 0, 2 0 0 0, 33 1 5 0, 34 4 6 0, 2 0 0 0,
            1 5 0 0, 18 8 9 0, 2 0 0 0, 2 1 0 0, 10 10 11 12, 2 0 0 0, 20 13 14 0, 48 0 7 15
            ",
        ),
        "
        25 16 20 10 18 3 2 0 1 1 1 5 3 2 0 1 1 3 2 0 1 1 3 2 0 1 1 4 16 27 0,
        -1
        ",
    );
    // a loop in a branch of a loop, with assertions, both marks, a frozen name, and every kind of
    // row
    expect_list(
        "every kind",
        &EVERY_KIND,
        "
        25 23 20 2 0 2 0 22 24 17 22 18 2 0 1 3 20 2 255 1 0 1 52 21 0,
        25 23 20 2 0 2 0 24 17 22 18 2 0 1 3 19 1 0 10 19 2 0 1 5 3 2 0 2 1 5 2 0 1 2 2 52 34 0,
        25 23 19 9 52 2 128 22 16 23 20 2 0 2 0 18 10 19 2 0 1 5 3 2 0 2 1 5 2 0 1 2 9 52 1 48 34 1,
        25 23 19 9 52 2 128 16 19 1 0 8 2 1 2 48 14 1,
        25 23 23 19 9 52 2 128 16 20 8 2 1 9 48 23 23 21 1 2 1 0 21 1 3 1 0 23 20 9 48 9 52 23 19
          9 52 2 128 18 8 7 6 2 0 1 2 1 3 9 48 3 48 51 1,
        25 23 23 20 2 0 2 0 24 17 22 18 2 0 1 3 20 10 19 2 0 1 5 3 2 0 2 1 5 2 0 1 2 9 52 23 21 9
          52 2 0 23 25 23 16 25 16 17 19 9 52 2 128 25 22 23 16 25 16 17 23 20 2 0 2 0 18 10 19 2 0
          1 5 3 2 0 2 1 5 2 0 1 2 9 52 3 52 85 0,
        25 16 20 2 0 2 0 4 61 7 0,
        -7
        ",
    );
}

/// Constants at their limits: main of row 5, 7 words, and a count of 1.
#[test]
fn constants() {
    expect_list(
        "constants",
        &rows("1 -2147483648 0 0, 1 2147483647 0 0, 20 0 1 0, 32 0 0 0, 16 0 0 0, 48 2 3 4"),
        "25 20 1 -2147483648 1 2147483647 16 4 5 7 0, -1",
    );
}

#[test]
fn the_recorded_cases() {
    let mut tried = 0;
    for case in cases(include_str!("generator_cases.txt")).skip(1) {
        expect_recorded_before_p9(case, |table, room, scratch, wanted| {
            expect(case, table, room, scratch, wanted)
        });
        tried += 1;
    }
    assert_eq!(tried, 75);
}
