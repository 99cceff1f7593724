//! Request P11, "A stepping machine", sentence by sentence: steps, the stack,
//! values, the numbers 50 to 54 in their order, what is lent; that the machine
//! agrees with the meaning of a run; and going on from a stack that is lent.

mod example_a;
mod random;
#[allow(dead_code)] // scripts divide anywhere here
#[path = "division/random_texts.rs"]
mod random_texts;

use example_a::EXAMPLE_A;
use random::Random;
use random_texts::{Texts, ANYWHERE};
use reference::*;

const NO_LIMIT: u64 = u64::MAX;
const MAX: i64 = i64::MAX;
const MIN: i64 = i64::MIN;
const SKIP: [i32; 4] = [32, 0, 0, 0];
const TRUE: [i32; 4] = [16, 0, 0, 0];

/// The words of the table that the text spells.
fn table(text: &str) -> Vec<i32> {
    let answer = read_text(text.as_bytes(), 8_192);
    assert_eq!((answer.number, answer.place), (0, 0), "{text}");
    assert_eq!(check(&answer.words), Verdict::Accepted, "{text}");
    answer.words
}

/// The table of a script with this statement.
fn script(statement: &str) -> Vec<i32> {
    table(&format!("pre true; {statement}; post true"))
}

/// The rows of a kind, in rising order.
fn rows_of_kind(table: &[i32], kind: i32) -> Vec<usize> {
    let rows = table.chunks(4).enumerate();
    rows.filter(|(_, row)| row[0] == kind)
        .map(|(row, _)| row)
        .collect()
}

fn only_row(table: &[i32], kind: i32) -> usize {
    let rows = rows_of_kind(table, kind);
    assert_eq!(rows.len(), 1);
    rows[0]
}

/// What is lent beside the stack: the first variables have these values, all
/// else is 0.
fn values(first: &[i64]) -> Vec<i64> {
    let mut values = first.to_vec();
    values.resize(VARIABLES, 0);
    values
}

/// Watches with as many words as the request asks for, in which the stack's
/// hold anything.
fn watched(table: &[i32], first: &[i64], limit: u64) -> Watched {
    let stack = vec![77; table.len() / 4];
    watch(table, &stack, &values(first), &[0; 2_048], limit)
}

/// The words of the stack up to its height; zeros are above.
fn due(watched: &Watched) -> Vec<usize> {
    let (due, above) = watched.stack.split_at(watched.height);
    assert!(above.iter().all(|&word| word == 0));
    due.iter().map(|&row| row as usize).collect()
}

/// Number, row and steps of a script with this statement.
fn answer(statement: &str, first: &[i64]) -> (u8, usize, u64) {
    let watched = watched(&script(statement), first, NO_LIMIT);
    (watched.number, watched.row, watched.steps)
}

fn number(statement: &str, first: &[i64]) -> u8 {
    answer(statement, first).0
}

/// The value of v0 after the statement, which ends.
fn result(statement: &str, first: &[i64]) -> i64 {
    let watched = watched(&script(statement), first, NO_LIMIT);
    assert_eq!(watched.number, 0, "{statement}");
    watched.variables[0]
}

// "A step is one skip, assignment, assertion or guard test with its mark; a
// sequence is none, split only as the next step begins."

#[test]
fn one_step_each() {
    let branch = "if v0 = 0 then skip else assert false end";
    for (statement, steps) in [
        ("skip", 1),
        ("v0 := 1", 1),
        ("assert true", 1),
        (branch, 2),
        ("while false keep false fall 0 do assert false end", 1),
        ("skip; skip", 2),
        ("skip; skip; v1 := 2; assert v1 = 2", 4),
    ] {
        assert_eq!(answer(statement, &[]), (0, 0, steps), "{statement}");
    }
}

/// Tests: 1 + passes; a body of one statement each.
#[test]
fn the_steps_of_example_a() {
    for start in 0..20 {
        let watched = watched(&EXAMPLE_A.concat(), &[start], NO_LIMIT);
        assert_eq!((watched.number, watched.row, watched.height), (0, 0, 0));
        assert_eq!(watched.steps, 1 + 2 * start as u64);
        assert_eq!(watched.variables, values(&[0]));
        assert_eq!(watched.marks[15], i64::from(start > 0));
        assert_eq!(due(&watched), []);
    }
}

#[test]
fn each_step_of_example_a() {
    let course: [(u64, &[usize], i64, i64, usize); 6] = [
        (0, &[15], 2, 0, 15),
        (1, &[15, 14], 2, 2, 14),
        (2, &[15], 1, 2, 15),
        (3, &[15, 14], 1, 1, 14),
        (4, &[15], 0, 1, 15),
        (5, &[], 0, 1, 0),
    ];
    for (limit, stack, value, mark, row) in course {
        let watched = watched(&EXAMPLE_A.concat(), &[2], limit);
        let number = if limit < 5 { 54 } else { 0 };
        assert_eq!((watched.number, watched.row), (number, row));
        assert_eq!((watched.steps, due(&watched)), (limit, stack.to_vec()));
        assert_eq!((watched.variables[0], watched.marks[15]), (value, mark));
    }
}

/// A sequence of sequences on both sides: rows 0 to 3 are skips, (0; 1); (2; 3).
#[test]
fn a_sequence_is_split_as_the_next_step_begins() {
    let rows = [
        SKIP,
        SKIP,
        SKIP,
        SKIP,
        [34, 0, 1, 0],
        [34, 2, 3, 0],
        [34, 4, 5, 0],
        TRUE,
        TRUE,
        [48, 7, 6, 8],
    ];
    let course: [(u64, u8, usize, &[usize]); 5] = [
        (0, 54, 0, &[6]),
        (1, 54, 1, &[5, 1]),
        (2, 54, 2, &[5]),
        (3, 54, 3, &[3]),
        (4, 0, 0, &[]),
    ];
    for (limit, number, row, stack) in course {
        let watched = watched(&rows.concat(), &[], limit);
        assert_eq!((watched.number, watched.row), (number, row));
        assert_eq!((watched.steps, due(&watched)), (limit, stack.to_vec()));
    }
}

/// The step that stops shows the sequence whole, and names its first part.
#[test]
fn a_sequence_whose_first_part_stops_is_not_split() {
    for (first, kind, number) in [
        ("assert false", 38, 52),
        ("v0 := 1 div 0", 33, 53),
        ("v0 := v1 + 1", 33, 50),
        ("if 1 div 0 = 0 then skip else skip end", 35, 53),
        ("while 1 mod 0 = 0 keep true fall 0 do skip end", 36, 53),
    ] {
        let table = script(&format!("{first}; skip; skip"));
        let watched = watched(&table, &[0, MAX], NO_LIMIT);
        let row = rows_of_kind(&table, kind)[0];
        assert_eq!(
            (watched.number, watched.row, watched.steps),
            (number, row, 0)
        );
        let outer = *rows_of_kind(&table, 34).last().unwrap();
        assert_eq!(due(&watched), [outer], "{first}");
    }
}

/// A body that is a sequence, and a sequence below a loop.
#[test]
fn a_body_is_not_split_with_the_test_before_it() {
    let table = script("while v0 < 1 keep true fall 1 - v0 do skip; v0 := v0 + 1 end; skip");
    let (body, outer) = (rows_of_kind(&table, 34)[0], rows_of_kind(&table, 34)[1]);
    let (first, last) = (rows_of_kind(&table, 32)[0], rows_of_kind(&table, 32)[1]);
    let (assign, the_loop) = (only_row(&table, 33), only_row(&table, 36));
    let course: [(usize, &[usize]); 6] = [
        (the_loop, &[outer]),
        (first, &[last, the_loop, body]),
        (assign, &[last, the_loop, assign]),
        (the_loop, &[last, the_loop]),
        (last, &[last]),
        (0, &[]),
    ];
    for (limit, (row, stack)) in (0..).zip(course) {
        let watched = watched(&table, &[], limit);
        assert_eq!((watched.row, due(&watched)), (row, stack.to_vec()));
        assert_eq!(watched.number, if row == 0 { 0 } else { 54 });
    }
}

#[test]
fn a_branch_takes_the_place_of_its_if() {
    let table = script("if v0 = 0 then v1 := 1 else v1 := 2 end; skip");
    for (value, taken) in [(0, 0), (5, 1)] {
        let branch = rows_of_kind(&table, 33)[taken];
        let after_test = watched(&table, &[value], 1);
        assert_eq!(due(&after_test), [only_row(&table, 32), branch]);
        assert_eq!(after_test.row, branch);
        let ended = watched(&table, &[value], NO_LIMIT);
        assert_eq!((ended.number, ended.steps), (0, 3));
        assert_eq!(ended.variables, values(&[value, 1 + taken as i64]));
    }
}

// "54 when the limit is spent and a step is still due"

#[test]
fn a_limit_of_just_the_steps_needed() {
    for (statement, steps) in [("skip", 1), ("skip; skip; skip", 3)] {
        let table = script(statement);
        for limit in 0..steps {
            let watched = watched(&table, &[], limit);
            assert_eq!((watched.number, watched.steps), (54, limit));
        }
        for limit in [steps, steps + 1, NO_LIMIT] {
            let watched = watched(&table, &[], limit);
            assert_eq!((watched.number, watched.row, watched.steps), (0, 0, steps));
        }
    }
}

/// The limit goes before what the step would meet.
#[test]
fn a_spent_limit_before_a_step_that_would_stop() {
    for (statement, number) in [
        ("skip; assert false", 52),
        ("skip; v0 := 1 div 0", 53),
        ("skip; v0 := v1 + 1", 50),
    ] {
        let table = script(statement);
        let last = table.len() / 4 - 4;
        for (limit, expected) in [(1, 54), (2, number), (3, number)] {
            let watched = watched(&table, &[0, MAX], limit);
            assert_eq!((watched.number, watched.steps), (expected, 1));
            assert_eq!((watched.row, due(&watched)), (last, vec![last]));
        }
    }
}

#[test]
fn a_loop_without_end() {
    let table = script("while true keep true fall 0 do skip end");
    let (the_loop, skip) = (only_row(&table, 36), only_row(&table, 32));
    let even = watched(&table, &[], 100_000);
    assert_eq!((even.number, even.row, even.steps), (54, the_loop, 100_000));
    let odd = watched(&table, &[], 100_001);
    assert_eq!((odd.number, odd.row, odd.height), (54, skip, 2));
}

// "50 when a value leaves 64 bits"

#[test]
fn a_value_at_the_edge_and_past_it() {
    for (assigned, first, expected) in [
        ("v0 + 1", [MAX - 1, 0], Some(MAX)),
        ("v0 + 1", [MAX, 0], None),
        ("v0 + v1", [MIN, MAX], Some(-1)),
        ("v0 + v1", [MIN, -1], None),
        ("v0 - 1", [MIN + 1, 0], Some(MIN)),
        ("v0 - 1", [MIN, 0], None),
        ("0 - v0", [MIN, 0], None),
        ("-1 - v0", [MIN, 0], Some(MAX)),
        ("-v0", [MIN, 0], None),
        ("-v0", [MAX, 0], Some(-MAX)),
        ("v0 * v1", [1 << 32, 1 << 31], None),
        ("v0 * v1", [1 << 32, -(1 << 31)], Some(MIN)),
        ("v0 * v1", [MIN, -1], None),
        ("v0 * v1", [MIN, MIN], None),
        ("v0 * v1", [MAX, MAX], None),
        ("v0 * 0", [MIN, 0], Some(0)),
        ("v0 div v1", [MIN, -1], None),
        ("v0 div v1", [MIN, 1], Some(MIN)),
        ("v0 div v1", [MAX, -1], Some(-MAX)),
        ("v0 mod v1", [MIN, -1], Some(0)),
        ("v0 mod v1", [-1, MIN], Some(MAX)),
        ("v0 div v1", [-1, MIN], Some(1)),
        ("v0 mod v1", [MAX, MIN], Some(MAX)),
        ("v0 mod v1", [MIN, MAX], Some(MAX - 1)),
        ("v0 + 1 - 1", [MAX, 0], None),
        ("v0 + (1 - 1)", [MAX, 0], Some(MAX)),
        ("v0 * 2 * 0", [MAX, 0], None),
        ("-(-v0)", [MIN, 0], None),
        ("(v0 * 2) div 2", [MAX, 0], None),
    ] {
        let statement = format!("v0 := {assigned}");
        let watched = watched(&script(&statement), &first, NO_LIMIT);
        match expected {
            Some(value) => assert_eq!((watched.number, watched.variables[0]), (0, value)),
            None => assert_eq!((watched.number, watched.variables), (50, values(&first))),
        }
    }
}

/// "div and mod are those of SMT-LIB Ints".
#[test]
fn div_and_mod() {
    for (n, d, quotient, rest) in [
        (-7, 2, -4, 1),
        (7, -2, -3, 1),
        (-7, -2, 4, 1),
        (7, 2, 3, 1),
        (-6, 3, -2, 0),
        (0, -5, 0, 0),
        (MIN, 2, MIN / 2, 0),
        (MIN, 3, MIN / 3 - 1, 1),
    ] {
        assert_eq!(result("v0 := v0 div v1", &[n, d]), quotient, "{n} {d}");
        assert_eq!(result("v0 := v0 mod v1", &[n, d]), rest, "{n} {d}");
    }
}

#[test]
fn every_place_where_a_value_leaves() {
    for (statement, kind) in [
        ("v0 := v1 + 1", 33),
        ("if v1 + 1 = 0 then skip else skip end", 35),
        ("while v1 + 1 = 0 keep true fall 0 do skip end", 36),
        ("while true keep true fall v1 + 1 do skip end", 36),
        ("assert v1 + 1 = 0", 38),
        ("assert false and v1 + 1 = 0", 38),
    ] {
        let table = script(&format!("v0 := 5; {statement}; v0 := 6"));
        let watched = watched(&table, &[0, MAX], NO_LIMIT);
        let rows = rows_of_kind(&table, kind);
        let row = rows[usize::from(kind == 33)];
        assert_eq!((watched.number, watched.row, watched.steps), (50, row, 1));
        assert_eq!(watched.variables, values(&[5, MAX]));
        assert_eq!(watched.marks, [0; 2_048]);
        assert_eq!(due(&watched).len(), 1, "{statement}");
    }
}

/// What a run does not work out stops none.
#[test]
fn what_is_not_worked_out() {
    let out = "v1 + 1 = 0";
    let text = format!(
        "pre {out}; while v0 = 0 keep {out} fall 3 do v0 := 1 end; \
         while false keep true fall v1 + 1 do skip end; \
         if true then skip else v0 := 1 div 0 end; post {out}"
    );
    let watched = watched(&table(&text), &[0, MAX], NO_LIMIT);
    assert_eq!((watched.number, watched.steps), (0, 6));
}

/// A variant that leaves stops the test that it belongs to; the mark stays.
#[test]
fn the_variant_of_a_later_pass() {
    let table = script("while v0 < 3 keep true fall v1 + v0 do v0 := v0 + 1 end");
    let the_loop = only_row(&table, 36);
    let watched = watched(&table, &[0, MAX - 1], NO_LIMIT);
    assert_eq!((watched.number, watched.row), (50, the_loop));
    assert_eq!((watched.steps, due(&watched)), (4, vec![the_loop]));
    assert_eq!((watched.variables[0], watched.marks[the_loop]), (2, MAX));
}

// "53 when a script divides by zero"

#[test]
fn every_place_where_a_script_divides_by_zero() {
    for (statement, kind) in [
        ("v0 := 1 div v1", 33),
        ("v0 := 1 mod v1", 33),
        ("v0 := 0 * (0 mod v1)", 33),
        ("if 1 div v1 = 0 then skip else skip end", 35),
        ("while 1 mod v1 = 0 keep true fall 0 do skip end", 36),
    ] {
        let table = script(statement);
        let watched = watched(&table, &[7, 0], NO_LIMIT);
        let row = only_row(&table, kind);
        assert_eq!((watched.number, watched.row, watched.steps), (53, row, 0));
        assert_eq!(watched.variables, values(&[7, 0]));
    }
}

/// "in annotations 01's totals stay"
#[test]
fn annotations_that_divide_by_zero() {
    let asserted = "assert 5 div v1 = 0 and 5 mod v1 = 5 and v0 mod 0 = v0";
    assert_eq!(answer(asserted, &[MIN]), (0, 0, 1));
    assert_eq!(number("assert 5 div v1 = 1", &[]), 52);
    let table = script("while v0 < 1 keep true fall 7 mod v1 - 7 div v1 do v0 := 1 end");
    let watched = watched(&table, &[], NO_LIMIT);
    assert_eq!(
        (watched.number, watched.marks[only_row(&table, 36)]),
        (0, 7)
    );
}

// "Operands go left first"

/// Of what leaves and what divides by zero, the one that is met first.
#[test]
fn fifty_or_fifty_three() {
    let (leaves, divides) = ("(v1 + 1)", "(1 div v2)");
    let first_met = |expression: &str, expected: u8| {
        let guard = format!("{expression} = 0");
        for statement in [
            format!("v0 := {expression}"),
            format!("if {guard} then skip else skip end"),
            format!("while {guard} keep true fall 0 do skip end"),
            format!("v0 := when({guard}, 1, 2)"),
            format!("if not {guard} then skip else skip end"),
        ] {
            assert_eq!(number(&statement, &[0, MAX, 0]), expected, "{statement}");
        }
    };
    for sign in ["+", "-", "*", "div", "mod"] {
        first_met(&format!("({leaves} {sign} {divides})"), 50);
        first_met(&format!("({divides} {sign} {leaves})"), 53);
        first_met(&format!("(1 {sign} {leaves})"), 50);
    }
    first_met("((v1 + 1) div v2)", 50);
    first_met("((v1 + 1) mod v2)", 50);
    first_met("(v1 mod v2)", 53);
    first_met("(1 div (v1 + 1))", 50);
    first_met("(-(v1 + 1))", 50);
    first_met("((1 div v2) + (v1 + 1))", 53);
}

#[test]
fn both_sides_of_formulas_left_first() {
    let (leaves, divides) = ("v1 + 1 = 0", "1 div v2 = 0");
    for connective in ["and", "or", "implies"] {
        for side in ["true", "false"] {
            for (formula, expected) in [
                (format!("{leaves} {connective} {divides}"), 50),
                (format!("{divides} {connective} {leaves}"), 53),
                (format!("{side} {connective} {leaves}"), 50),
                (format!("{leaves} {connective} {side}"), 50),
                (format!("{side} {connective} {divides}"), 53),
                (format!("{divides} {connective} {side}"), 53),
            ] {
                let branch = format!("if {formula} then skip else skip end");
                assert_eq!(number(&branch, &[0, MAX, 0]), expected, "{formula}");
            }
        }
    }
    for sign in ["<", "<=", "=", "<>"] {
        let branch = format!("if v1 + 1 {sign} 1 div v2 then skip else skip end");
        assert_eq!(number(&branch, &[0, MAX, 0]), 50);
        let branch = format!("if 1 div v2 {sign} v1 + 1 then skip else skip end");
        assert_eq!(number(&branch, &[0, MAX, 0]), 53);
    }
}

/// "in annotations too, choose works out only the branch taken, connectives
/// both sides"
#[test]
fn annotations_work_out_the_same_parts() {
    for connective in ["and", "or", "implies"] {
        for side in ["true", "false"] {
            for formula in [
                format!("{side} {connective} v1 + 1 = 0"),
                format!("v1 + 1 = 0 {connective} {side}"),
            ] {
                assert_eq!(number(&format!("assert {formula}"), &[0, MAX]), 50);
                let variant = format!("when({formula}, 1, 2)");
                let around = format!("while true keep true fall {variant} do skip end");
                assert_eq!(answer(&around, &[0, MAX]).0, 50, "{formula}");
            }
        }
    }
    assert_eq!(number("assert when(true, 1, v1 + 1) = 1", &[0, MAX]), 0);
    assert_eq!(number("assert when(false, v1 + 1, 1) = 1", &[0, MAX]), 0);
    assert_eq!(number("assert when(true, v1 + 1, 1) = 1", &[0, MAX]), 50);
    assert_eq!(number("assert when(v1 + 1 = 0, 1, 1) = 1", &[0, MAX]), 50);
}

#[test]
fn choose_works_out_the_branch_taken() {
    for (assigned, expected) in [
        ("when(true, 1, v1 + 1)", 0),
        ("when(false, v1 + 1, 1)", 0),
        ("when(true, 1, 1 div 0)", 0),
        ("when(false, 1 div 0, 1)", 0),
        ("when(true, v1 + 1, 1)", 50),
        ("when(false, 1, v1 + 1)", 50),
        ("when(true, 1 div 0, 1)", 53),
        ("when(1 div 0 = 0, v1 + 1, v1 + 1)", 53),
        ("when(v1 + 1 = 0, 1 div 0, 1 div 0)", 50),
    ] {
        let statement = format!("v0 := {assigned}");
        assert_eq!(number(&statement, &[0, MAX]), expected, "{assigned}");
    }
}

#[test]
fn connectives_and_comparisons() {
    for (formula, expected) in [
        ("true and true", true),
        ("true and false", false),
        ("false or false", false),
        ("false or true", true),
        ("true implies false", false),
        ("false implies false", true),
        ("not false", true),
        ("1 < 1", false),
        ("1 <= 1", true),
        ("2 <= 1", false),
        ("-1 < 1", true),
        ("1 = 1", true),
        ("1 <> 1", false),
    ] {
        let assertion = format!("assert {formula}");
        let number_of_assertion = if expected { 0 } else { 52 };
        assert_eq!(number(&assertion, &[]), number_of_assertion, "{formula}");
        let taken = format!("if {formula} then v0 := 1 else v0 := 2 end");
        assert_eq!(result(&taken, &[]), if expected { 1 } else { 2 });
        let chosen = format!("v0 := when({formula}, 1, 2)");
        assert_eq!(result(&chosen, &[]), if expected { 1 } else { 2 });
    }
}

// "52 when an assertion is false"

#[test]
fn a_false_assertion_leaves_all_as_before_it() {
    let table = script("v0 := 3; assert v0 = 4; v0 := 4");
    let watched = watched(&table, &[], NO_LIMIT);
    let row = only_row(&table, 38);
    assert_eq!((watched.number, watched.row, watched.steps), (52, row, 1));
    assert_eq!(watched.variables, values(&[3]));
    assert_eq!(due(&watched), [rows_of_kind(&table, 34)[0]]);
}

/// "The mark of a loop is the variant's value when the present pass of its body
/// began."
#[test]
fn marks_are_read_in_annotations() {
    let inner = "while v1 < 2 keep true fall mark(1) - v1 do v1 := v1 + 1; \
                 assert mark(1) = mark(2) - v1 + 1 end";
    let table = script(&format!(
        "while v0 < 1 keep true fall 2 do {inner}; v0 := 1 end"
    ));
    let loops = rows_of_kind(&table, 36);
    let watched = watched(&table, &[], NO_LIMIT);
    assert_eq!((watched.number, watched.steps), (0, 10));
    assert_eq!((watched.marks[loops[0]], watched.marks[loops[1]]), (1, 2));
}

/// Marks of loops that are not begun keep what is lent, and no other mark
/// changes.
#[test]
fn marks_from_the_start() {
    let table = EXAMPLE_A.concat();
    let marks: Vec<i64> = (0..2_048).map(|mark| MIN + mark).collect();
    let none = watch(&table, &[0; 20], &values(&[0]), &marks, NO_LIMIT);
    assert_eq!((none.number, none.marks), (0, marks.clone()));
    let some = watch(&table, &[0; 20], &values(&[5]), &marks, NO_LIMIT);
    let mut expected = marks;
    expected[15] = 1;
    assert_eq!((some.number, some.marks), (0, expected));
}

/// Frozen names and every other variable.
#[test]
fn variables_at_both_ends() {
    let table = script("v1023 := v0 - v1022; assert v1023 = v255 and v128 = 1");
    let mut first = values(&[5]);
    (first[1_022], first[255], first[128]) = (-2, 7, 1);
    let watched = watched(&table, &first, NO_LIMIT);
    first[1_023] = 7;
    assert_eq!((watched.number, watched.variables), (0, first));
}

// "51 when the stack has fewer words than rows or a value run is short"; "1 to
// 10 come first, then 51, all lent words unchanged"

/// Lent words that hold something everywhere.
struct Full {
    stack: Vec<u32>,
    variables: Vec<i64>,
    marks: Vec<i64>,
}

impl Full {
    fn of(stack: usize, variables: usize, marks: usize) -> Full {
        Full {
            stack: (1..).take(stack).collect(),
            variables: (100..).take(variables).collect(),
            marks: (7_000..).take(marks).collect(),
        }
    }

    fn watch(&self, table: &[i32], limit: u64) -> Watched {
        watch(table, &self.stack, &self.variables, &self.marks, limit)
    }

    fn go_on(&self, table: &[i32], height: usize, limit: u64) -> Watched {
        go_on(
            table,
            &self.stack,
            height,
            &self.variables,
            &self.marks,
            limit,
        )
    }

    fn refused(&self, number: u8, row: usize) -> Watched {
        Watched {
            number,
            row,
            steps: 0,
            height: 0,
            stack: self.stack.clone(),
            variables: self.variables.clone(),
            marks: self.marks.clone(),
        }
    }
}

#[test]
fn what_is_lent_is_too_short() {
    let table = EXAMPLE_A.concat();
    for (stack, variables, marks) in [
        (19, 1_024, 2_048),
        (0, 1_024, 2_048),
        (20, 1_023, 2_048),
        (20, 0, 2_048),
        (20, 1_024, 2_047),
        (20, 1_024, 0),
        (0, 0, 0),
        (4_000, 1_023, 4_000),
    ] {
        let lent = Full::of(stack, variables, marks);
        for limit in [0, 1, NO_LIMIT] {
            assert_eq!(lent.watch(&table, limit), lent.refused(51, 0));
        }
    }
}

#[test]
fn the_refusals_of_the_check_come_first() {
    let mut sealed = EXAMPLE_A;
    sealed[14] = [33, 128, 13, 0];
    for (table, number, row) in [
        (sealed.concat(), 8, 14),
        (vec![], 1, 0),
        (vec![16; 7], 1, 0),
    ] {
        for (stack, values) in [(20, 3_000), (0, 0), (19, 1_023)] {
            let lent = Full::of(stack, values, values);
            assert_eq!(lent.watch(&table, 5), lent.refused(number, row));
            assert_eq!(lent.go_on(&table, 1, 5), lent.refused(number, row));
        }
    }
}

#[test]
fn longer_runs_are_left_alone() {
    let table = EXAMPLE_A.concat();
    let lent = Full::of(50, 1_030, 2_060);
    for (limit, number, height, value) in [
        (0, 54, 1, 100),
        (1, 54, 2, 100),
        (2, 54, 1, 99),
        (7, 54, 2, 97),
        (NO_LIMIT, 0, 0, 0),
    ] {
        let watched = lent.watch(&table, limit);
        assert_eq!((watched.number, watched.variables[0]), (number, value));
        assert_eq!((watched.stack.len(), due(&watched).len()), (50, height));
        assert_eq!(watched.variables[1..], lent.variables[1..]);
        assert_eq!(watched.marks[..15], lent.marks[..15]);
        assert_eq!(watched.marks[16..], lent.marks[16..]);
    }
}

/// The largest table: a sequence of 1,023 skips to the right, and one to the
/// left, whose stack becomes as high as any.
#[test]
fn the_longest_sequences() {
    for to_the_left in [false, true] {
        let mut rows = vec![SKIP; 1_023];
        let mut joined = if to_the_left { 0 } else { 1_022 };
        for part in 1..1_023 {
            let (left, right) = if to_the_left {
                (joined, part)
            } else {
                (1_022 - part, joined)
            };
            rows.push([34, left, right, 0]);
            joined = rows.len() as i32 - 1;
        }
        rows.extend([TRUE, TRUE, [48, joined + 1, joined, joined + 2]]);
        assert_eq!(rows.len(), 2_048);
        let table = rows.concat();
        let first = watched(&table, &[], 1);
        assert_eq!((first.number, first.row, first.steps), (54, 1, 1));
        assert_eq!(first.height, if to_the_left { 1_022 } else { 1 });
        let ended = watched(&table, &[], NO_LIMIT);
        assert_eq!((ended.number, ended.steps, ended.height), (0, 1_023, 0));
    }
}

// "It agrees with the meaning of a run step for step."

const STARTS: [i64; 12] = [-2, -1, 0, 0, 1, 2, 3, MAX, MAX - 1, MIN, MIN + 1, 1 << 40];

/// A script by chance, in which marks stand wherever they may.
fn random_script(seed: u64) -> (Vec<i32>, Random) {
    let mut texts = Texts::new(seed, ANYWHERE, true);
    let text = texts.script(1 + seed as usize % 3);
    let mut table = table(&text);
    let mut random = texts.random;
    let loops = rows_of_kind(&table, 36);
    if !loops.is_empty() {
        for row in rows_of_kind(&table, 2) {
            let mut marked = table.clone();
            marked[4 * row..4 * row + 2].copy_from_slice(&[9, random.pick(&loops) as i32]);
            if check(&marked) == Verdict::Accepted && random.below(3) == 0 {
                table = marked;
            }
        }
    }
    (table, random)
}

/// A start in which the first variables and all marks have values.
fn random_start(random: &mut Random) -> (Vec<i64>, Vec<i64>) {
    let variables = values(&[0; 6].map(|_: i64| random.pick(&STARTS)));
    (variables, (0..2_048).map(|mark| mark % 5).collect())
}

/// As a state of a run: the variables that random scripts have, and the marks of
/// the table's rows. No other value changes.
fn state_of(table: &[i32], variables: &[i64], marks: &[i64]) -> State {
    let mut state = State::default();
    for (number, &value) in variables[..8].iter().enumerate() {
        state.set_variable(Variable(number), i128::from(value));
    }
    for (row, &value) in marks[..table.len() / 4].iter().enumerate() {
        state.set_mark(Row(row), i128::from(value));
    }
    state
}

/// The steps of a run that hold so many of the machine: in a run every
/// statement begun is a step, a sequence too.
fn steps_of_run(table: &[i32], steps: u64) -> u64 {
    (steps + 1) * (table.len() / 4) as u64
}

/// The rows that a row links to.
fn links(table: &[i32], row: usize) -> Vec<usize> {
    let words = &table[4 * row..4 * row + 4];
    let roles = shape(words[0]).expect("a listed kind").roles;
    let fields = roles.into_iter().zip(&words[1..]);
    let link = |(role, value): (Role, &i32)| matches!(role, Role::Link(_)).then_some(*value);
    fields.filter_map(link).map(|row| row as usize).collect()
}

/// The words that spell the expression or formula of a row.
fn spelled(table: &[i32], row: usize) -> Vec<i32> {
    let mut words = vec![table[4 * row]];
    if matches!(words[0], 1 | 2 | 9) {
        words.push(table[4 * row + 1]);
    }
    for link in links(table, row) {
        words.extend(spelled(table, link));
    }
    words
}

/// The value of the row, which is an expression.
fn value_of_row(table: &[i32], row: usize, state: &State) -> Result<i128, TooLarge> {
    let equals_zero = [&[20][..], &spelled(table, row), &[1, 0]].concat();
    match formula_from_words(&equals_zero) {
        Some(Formula::Compare(_, value, _)) => value_of(&value, state),
        other => panic!("{other:?} is no comparison"),
    }
}

/// Whether a row is an expression whose value leaves 64 bits, or has such a
/// part.
fn has_value_that_leaves(table: &[i32], row: usize, state: &State) -> bool {
    let is_expression = shape(table[4 * row]).unwrap().sort == Sort::Expression;
    let stays = |value: Result<i128, TooLarge>| value.is_ok_and(|one| i64::try_from(one).is_ok());
    if is_expression && !stays(value_of_row(table, row, state)) {
        return true;
    }
    let mut parts = links(table, row).into_iter();
    parts.any(|part| has_value_that_leaves(table, part, state))
}

/// What the step of a statement may work out.
fn worked_out(table: &[i32], row: usize) -> Vec<usize> {
    let parts = links(table, row);
    match table[4 * row] {
        // the guard and the variant
        36 => vec![parts[0], links(table, parts[1])[1]],
        // the assigned or asserted part, or the guard
        _ => parts.into_iter().take(1).collect(),
    }
}

/// Ends, failures and states of the machine are those of the run, wherever no
/// value leaves 64 bits; and where it says that one does, one does.
#[test]
fn ends_and_states_of_runs() {
    let mut tally = [0; 256];
    for seed in 1..20_000 {
        let (table, mut random) = random_script(seed);
        let (variables, marks) = random_start(&mut random);
        let limit = 400;
        let watched = watch(&table, &vec![9; table.len() / 4], &variables, &marks, limit);
        tally[usize::from(watched.number)] += 1;
        let kind = table[4 * watched.row];
        let due = due(&watched);
        assert_eq!(watched.number == 0, due.is_empty());
        if watched.number == 50 || watched.number == 54 {
            assert!(matches!(kind, 32 | 33 | 35 | 36 | 38), "{kind}");
            assert_eq!(watched.steps == limit, watched.number == 54);
            let state = state_of(&table, &watched.variables, &watched.marks);
            let mut parts = worked_out(&table, watched.row).into_iter();
            let leaves = parts.any(|part| has_value_that_leaves(&table, part, &state));
            assert!(leaves || watched.number == 54, "{table:?}");
            continue;
        }
        let most = steps_of_run(&table, limit);
        let start = state_of(&table, &variables, &marks);
        let run = run(&table, &start, most).unwrap();
        match watched.number {
            0 => assert_eq!((run.end, watched.row), (End::Done, 0)),
            52 => assert_eq!(run.end, End::Failed(Row(watched.row))),
            53 => assert_eq!(run.end, End::DividedByZero),
            other => panic!("{other}"),
        }
        assert!(watched.number != 53 || matches!(kind, 33 | 35 | 36));
        let state = state_of(&table, &watched.variables, &watched.marks);
        assert_eq!(run.state, state, "{table:?}");
        assert_eq!(watched.variables[8..], variables[8..]);
        assert_eq!(watched.marks[table.len() / 4..], marks[table.len() / 4..]);
    }
    for (number, least) in [(0, 5_000), (50, 500), (52, 1_000), (53, 2_000), (54, 300)] {
        assert!(tally[number] > least, "{number}: {}", tally[number]);
    }
}

/// The answers after 0, 1, 2, ... steps, up to the limit or the first that is
/// not 54: each call but the first goes on for one step from the last.
fn one_by_one(table: &[i32], variables: &[i64], marks: &[i64], limit: usize) -> Vec<Watched> {
    let stack = vec![3; table.len() / 2];
    let mut answers = vec![watch(table, &stack, variables, marks, 0)];
    while answers[answers.len() - 1].number == 54 && answers.len() <= limit {
        let mut last = answers[answers.len() - 1].clone();
        last.stack[last.height..].fill(5);
        let (height, variables, marks) = (last.height, &last.variables, &last.marks);
        answers.push(go_on(table, &last.stack, height, variables, marks, 1));
    }
    answers
}

/// Many calls of one step are one call of many.
#[test]
fn going_on_step_by_step() {
    let mut calls = 0;
    for seed in 20_000..24_000 {
        let (table, mut random) = random_script(seed);
        let (variables, marks) = random_start(&mut random);
        let stack = vec![8; table.len() / 2];
        let answers = one_by_one(&table, &variables, &marks, 40);
        calls += answers.len();
        for (limit, answer) in answers.into_iter().enumerate() {
            let stopped = matches!(answer.number, 50 | 52 | 53);
            let expected_steps = usize::from(limit > 0 && !stopped);
            assert_eq!(answer.steps, expected_steps as u64);
            let steps = (limit - usize::from(stopped)) as u64;
            let at_once = watch(&table, &stack, &variables, &marks, limit as u64);
            assert_eq!(Watched { steps, ..answer }, at_once);
        }
    }
    assert!(calls > 20_000, "{calls}");
}

/// The states that the machine comes through, one after the other.
fn states(table: &[i32], answers: &[Watched]) -> Vec<State> {
    let state = |answer: &Watched| state_of(table, &answer.variables, &answer.marks);
    let mut states: Vec<State> = answers.iter().map(state).collect();
    states.dedup();
    states
}

/// The states that the machine comes through are those of the run, up to
/// repetitions.
#[test]
fn every_state_of_runs() {
    let mut changes = 0;
    for seed in 30_000..34_000 {
        let (table, mut random) = random_script(seed);
        let (variables, marks) = random_start(&mut random);
        let limit = 60;
        let answers = one_by_one(&table, &variables, &marks, limit);
        let of_machine = states(&table, &answers);
        let count = of_machine.len();
        changes += count - 1;

        let mut of_run: Vec<State> = Vec::new();
        let mut observer = |state: &State| {
            if of_run.len() <= count && of_run.last() != Some(state) {
                of_run.push(state.clone());
            }
        };
        let most = steps_of_run(&table, limit as u64);
        let start = state_of(&table, &variables, &marks);
        run_observed(&table, &start, most, &mut observer).unwrap();
        let is_whole = matches!(answers[answers.len() - 1].number, 0 | 52 | 53);
        let compared = if is_whole { of_run.len() } else { count };
        assert!(of_run.len() >= count);
        assert!(of_machine == of_run[..compared], "{table:?}");
    }
    assert!(changes > 5_000, "{changes}");
}

/// Whether all formulas are true in all states; nothing where a value is too
/// large to tell.
fn all_true(formulas: &[&Formula], states: &[State]) -> Option<bool> {
    for formula in formulas {
        for state in states {
            if !formula_is_true(formula, state).ok()? {
                return Some(false);
            }
        }
    }
    Some(true)
}

/// "When a script's conditions are proved and its start meets the precondition,
/// 52 and 53 do not occur." Here conditions are true in all states that the
/// machine comes through.
#[test]
fn proved_scripts_meet_no_52_and_no_53() {
    let (mut proved, mut others) = ([0; 256], [0; 256]);
    for seed in 40_000..52_000 {
        let (table, mut random) = random_script(seed);
        let (variables, marks) = random_start(&mut random);
        let script = script_of(&table);
        let Ok(conditions) = conditions(&script, LONGEST_LIST) else {
            continue;
        };
        let formulas: Vec<&Formula> = conditions.iter().map(|one| &one.formula).collect();
        let answers = one_by_one(&table, &variables, &marks, 60);
        let states = states(&table, &answers);
        let meets = all_true(&[&script.precondition], &states[..1]) == Some(true);
        let is_proved = meets && all_true(&formulas, &states) == Some(true);
        let number = usize::from(answers[answers.len() - 1].number);
        (if is_proved { &mut proved } else { &mut others })[number] += 1;
    }
    assert_eq!((proved[52], proved[53]), (0, 0));
    assert!(proved[0] > 500, "{}", proved[0]);
    assert!(others[52] > 500 && others[53] > 500);
}

// Going on from a stack that is lent.

#[test]
fn nothing_to_go_on_with() {
    let lent = Full::of(30, 1_024, 2_048);
    for limit in [0, 5] {
        let watched = lent.go_on(&EXAMPLE_A.concat(), 0, limit);
        assert_eq!(watched.stack, [0; 30]);
        assert_eq!(
            Watched {
                stack: lent.stack.clone(),
                ..watched
            },
            lent.refused(0, 0)
        );
    }
}

#[test]
fn a_stack_too_short_to_go_on() {
    let table = EXAMPLE_A.concat();
    for (height, stack) in [(0, 20), (1, 21), (5, 25), (20, 40)] {
        let enough = Full::of(stack, 1_024, 2_048).go_on(&table, height, 0);
        assert_eq!(enough.number, if height == 0 { 0 } else { 54 });
        assert_eq!(enough.height, height);
        for lent in [
            Full::of(stack - 1, 1_024, 2_048),
            Full::of(stack, 1_023, 2_048),
            Full::of(stack, 1_024, 2_047),
        ] {
            assert_eq!(lent.go_on(&table, height, 9), lent.refused(51, 0));
        }
    }
    let lent = Full::of(100, 1_024, 2_048);
    for height in [81, 101, usize::MAX - 19, usize::MAX] {
        assert_eq!(lent.go_on(&table, height, 9), lent.refused(51, 0));
    }
}

/// Expressions, formulas, the note, the script and what is no row at all: a
/// step each, in which nothing changes.
#[test]
fn words_that_are_no_statements() {
    let table = EXAMPLE_A.concat();
    let others = [0, 2, 5, 10, 13, 18, 19, 20, 21, 8_192, u32::MAX];
    let mut lent = Full::of(20 + others.len(), 1_024, 2_048);
    lent.stack[..others.len()].copy_from_slice(&others);
    for limit in 0..=others.len() {
        let watched = lent.go_on(&table, others.len(), limit as u64);
        let rest = &others[..others.len() - limit];
        assert_eq!(watched.steps, limit as u64);
        assert_eq!(watched.height, rest.len());
        assert_eq!(due(&watched).len(), rest.len());
        assert_eq!(&watched.stack[..rest.len()], rest);
        let named = rest.last().map_or((0, 0), |&word| (54, word as usize));
        assert_eq!((watched.number, watched.row), named);
        assert_eq!(watched.variables, lent.variables);
        assert_eq!(watched.marks, lent.marks);
    }
}

/// The rows of a stack are done from the last to the first, whatever they are,
/// and sequences are split there too.
#[test]
fn a_stack_of_any_rows() {
    let table = script("v0 := v0 + 1; v0 := v0 * 2; v0 := v0 - 3");
    let assigns = rows_of_kind(&table, 33);
    let sequences = rows_of_kind(&table, 34);
    let rows = table.len() / 4;
    let words = [assigns[0], sequences[0], 0, assigns[2], sequences[1]];
    let mut stack = vec![9; rows + words.len()];
    for (word, row) in stack.iter_mut().zip(words) {
        *word = row as u32;
    }
    let going = |limit| {
        let height = words.len();
        go_on(&table, &stack, height, &values(&[5]), &[0; 2_048], limit)
    };
    let course: [(usize, i64, &[usize]); 9] = [
        (assigns[0], 5, &words),
        (
            assigns[1],
            6,
            &[words[0], words[1], 0, words[3], sequences[0]],
        ),
        (
            assigns[2],
            12,
            &[words[0], words[1], 0, words[3], assigns[2]],
        ),
        (assigns[2], 9, &[words[0], words[1], 0, words[3]]),
        (0, 6, &[words[0], words[1], 0]),
        (assigns[1], 6, &[words[0], words[1]]),
        (assigns[2], 12, &[words[0], assigns[2]]),
        (assigns[0], 9, &[words[0]]),
        (0, 10, &[]),
    ];
    for (limit, (row, value, expected)) in (0..).zip(course) {
        let watched = going(limit);
        assert_eq!(watched.number, if limit < 8 { 54 } else { 0 });
        assert_eq!((watched.row, watched.variables[0]), (row, value));
        assert_eq!((watched.steps, due(&watched)), (limit, expected.to_vec()));
    }
    assert_eq!(going(NO_LIMIT), going(8));
}

/// What stops a step stops it here too, and leaves all as before it.
#[test]
fn a_step_that_stops_while_going_on() {
    let table = script("assert v0 = 1; v0 := 1 div v1; v0 := v2 + 1");
    let rows = table.len() / 4;
    let assigns = rows_of_kind(&table, 33);
    for (top, number) in [
        (only_row(&table, 38), 52),
        (assigns[0], 53),
        (assigns[1], 50),
    ] {
        let mut stack = vec![6; rows + 2];
        (stack[0], stack[1]) = (1_000_000, top as u32);
        let first = values(&[0, 0, MAX]);
        let watched = go_on(&table, &stack, 2, &first, &[4; 2_048], 7);
        assert_eq!(
            (watched.number, watched.row, watched.steps),
            (number, top, 0)
        );
        assert_eq!(due(&watched), [1_000_000, top]);
        assert_eq!((watched.variables, watched.marks), (first, vec![4; 2_048]));
    }
}
